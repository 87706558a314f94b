"""The ledger: what was sent under which number, and what came back, kept through any crash.

`ledger` is the ledger itself, over the file of `file` with the tables of `schema`. `digests` says what it knows of files.

Who may use it: every later room. What it may use: `wire`, `base` and `protocol`.
"""
