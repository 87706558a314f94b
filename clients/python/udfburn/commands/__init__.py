"""The commands of `udfburn-client`: each module declares some of them, and `cli` runs one.

`arguments` declares what all share, and `common` finds the volume that they name.

Who may use it: nobody. What it may use: every room but `archive`.
"""
