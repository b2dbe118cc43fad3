"""What `torture/run` runs, each by its name: `add_words` are its words, and `is_right` says whether all came as it has
to. The rest is shared: the routers of the stored scenarios, random events, a data plane whose duties can be forgotten,
and states that hold much."""
