"""What every room needs: errors by their names, the local disk, and what a command prints.

`beneath` reaches local files by descriptors and follows no link. `errors` has each refusal of the client.

Who may use it: every room but `protocol`. What it may use: `protocol`.
"""
