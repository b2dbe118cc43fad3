"""What is shown of a run and of its routers: tables, pages and a prompt. `views` has what a router knows, by FRR's
names.
"""
