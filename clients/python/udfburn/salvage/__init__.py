"""What can be read of a damaged image: states, trees, and files by their digests, written below one folder.

Who may use it: `commands`. What it may use: `reader`, `ledger`, `local` and what these use. It sends nothing to a volume.
"""
