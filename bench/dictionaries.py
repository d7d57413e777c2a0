"""The sets of dictionaries: FreeRADIUS's own where it is installed, and the small one of this repository."""
from pathlib import Path
from typing import List, NamedTuple

from peer import SERVER


class Set(NamedTuple):
    """A set of dictionary files in a folder."""

    name: str
    folder: Path

    @property
    def files(self) -> List[Path]:
        """Its files, the main one first."""
        return sorted(self.folder.glob("dictionary*"))


def sets(root: Path) -> List[Set]:
    """Those that are there."""
    found = [Set("FreeRADIUS's set", SERVER), Set("the small set", root / "dictionaries")]
    return [it for it in found if it.files]
