"""Requests that act once: numbered, kept in the ledger, sent, repeated where no reply came, and confirmed.

`session` runs them, in groups that are `in_flight`, and `recovery` finishes what has no reply; `shown` says what became of requests whose
replies are gone, and `together` which may be under way so that this can be said. Each `conversation` first has `recognition` compare what is
at the endpoint with what the ledger has of it.

Who may use it: `trees`. What it may use: `image` and every earlier room.
"""
