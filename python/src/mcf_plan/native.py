"""Where that lies which was built for this machine: the program mcf and the C library."""

from __future__ import annotations

import os
from pathlib import Path
from typing import Optional


def built(crate: str, name: str) -> Optional[str]:
    """The file of this name that the repository has built of a crate, else that of the package itself; None where there
    is neither."""
    here = Path(__file__).resolve()
    places = [top / "crates" / crate / "out" / name for top in list(here.parents)[3:4]]
    for place in (*places, here.parent / "native" / name):
        if place.is_file() and os.access(place, os.R_OK):
            return str(place)
    return None
