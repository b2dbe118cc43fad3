"""What came of the packets of a run: the way of each, where it ended, and what the routers knew then. `served` says
whether a host is served, and `reasons` why an interface is in a list or no Join leaves.
"""
