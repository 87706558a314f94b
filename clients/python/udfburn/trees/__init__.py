"""`Client`, and whole trees: stored, compared, copied and sealed.

`jobs` is a local file on its way to a volume, `growing` makes the requests of a large one, and `tree` stores them all.

Who may use it: `commands` and `archive`. What it may use: every earlier room but `discs`.
"""
