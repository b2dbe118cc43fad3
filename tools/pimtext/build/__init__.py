"""How the program and the library are built and found.

`program` finds the build of the program, and `shared` the library that the tools ask, which `library` has. `kept` knows
where unproved builds are kept, and `unproved` makes them, each once, as `builds` sees to, by the programs of the `kit`
and of what `modules` leaves of the kit's code.
"""
