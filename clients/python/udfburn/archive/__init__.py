"""An archive over many volumes: `udfburn-archive`, described in docs/ARCHIVE.md.

The volumes are the truth. The catalogue says where each file is, and can be made again from the volumes alone.

What stores: `add`, `scan`, `fresh`, `fill`, `volume`, `sending`, `repeats`, `bundling`. What ends a volume and copies it: `close`,
`remotes`, `parity`, `open_copies`. What gives back: `get`, `view` under `mount`, `bring_back`, `assemble`. What asks: `lookups` over `find`,
`queries`, `report`. What the catalogue is: `catalogue` over `base` and `schema`; `rebuild` makes it again.

Who may use it: nobody. What it may use: every room but `commands`.
"""

__all__ = ["errors"]
