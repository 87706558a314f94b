"""Folders and files for the kernel (FUSE), each byte compared before it is given; an image as such a tree.

Who may use it: `commands` and `archive`. What it may use: `reader`, `local` and all below.
"""
