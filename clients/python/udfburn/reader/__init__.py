"""A reader of its own: it knows docs/FORMAT.md and the standards that page names, and shares no code with what writes.

    from udfburn.reader import Medium, Volume

    with Medium("disc.img") as medium:
        volume = Volume(medium)
        print(volume.label, volume.moment, volume.capacity)
        state = volume.state()
        for node in state.walk():
            print(node.path, node.kind, node.size)
        print(volume.notes.all())           # what is not as docs/FORMAT.md has it

It takes what can be read and notes what is not as it must be, so it never refuses a volume for a wrong byte. Where `notes` is
empty after `Volume.check`, the volume is as docs/FORMAT.md has it.

Who may use it: `image`, and what is above. What it may use: `beneath` of `base`, and `units` of `protocol`.
"""

from .entry import Entry, Extent, FileType
from .medium import MapError, Medium, RescueMap, Run
from .notes import DamageCause, Note, Notes, StructureFault
from .volume import NoVolume, State, StateNode, Volume
from .table import ClientRecord, KeptReply, Table

__all__ = [
    "ClientRecord", "DamageCause", "Entry", "Extent", "FileType", "KeptReply", "MapError", "Medium", "NoVolume", "Note", "Notes", "RescueMap", "Run", "State",
    "StateNode", "StructureFault", "Table", "Volume",
]
