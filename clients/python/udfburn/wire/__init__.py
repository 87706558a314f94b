"""One volume and how to reach it: over a socket, by the program, by the C library, or on the disc in a recorder.

`connection` sends requests and queries, `endpoint` chooses the way, and `retrying` opens again what is lost.

Who may use it: every later room. What it may use: `base` and `protocol`.
"""
