"""What an image says of itself: who it is, its room, its earlier states, and whether its files have their digests.

Nothing here changes an image.

Who may use it: `session`, `trees`, `commands` and `archive`. What it may use: `reader`, `local` and every earlier room.
"""
