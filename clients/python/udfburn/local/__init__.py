"""Local files: read as one whole, written whole, and deleted only as they were read.

`sources` reads and deletes them, `saving` writes them, and `not_kept` says what of them a volume does not keep.

Who may use it: every later room but `reader`. What it may use: `ledger`, `wire`, `base` and `protocol`.
"""
