"""The texts of the families in a folder, and the arcs that an answer uses."""

from __future__ import annotations

import subprocess
from dataclasses import dataclass
from pathlib import Path
from typing import List

from measuring import Run

FAMILIES_SCRIPT = Path(__file__).resolve().parent / "families.py"


@dataclass(frozen=True)
class Texts:
    """The texts of problems in a folder, by size and family; a text that is missing is made."""

    folder: Path

    def path(self, family: str, size: str) -> Path:
        place = self.folder / size
        if not found(place, family):
            words = [str(FAMILIES_SCRIPT), "write", str(place), "--size", size, "--family", family]
            subprocess.run(words, check=True, stdout=subprocess.DEVNULL)
        return found(place, family)[0]


def found(place: Path, family: str) -> List[Path]:
    """The text of a family; an assignment stands before the same told as `min`."""
    return sorted(place.glob(f"{family}.*"), key=lambda path: (path.suffix != ".asn", path))


def used_arcs(problem: Path, answer: Run, most: int) -> List[int]:
    """The numbers of arcs that carry flow and may be closed, at most so many, spread over all of these."""
    with open(problem, encoding="ascii") as lines:
        rows = [line.split() for line in lines if line.startswith("a ")]
    # An arc with a lower bound cannot be closed. For `min` the fields of an arc are SRC DST LOW CAP COST.
    may_close = [problem.suffix != ".min" or row[3] == "0" for row in rows]
    flows = [line.split()[-1] for line in answer.lines("f")]
    used = [place for place, (flow, may) in enumerate(zip(flows, may_close), start=1) if may and flow != b"0"]
    return used[:: max(1, len(used) // most)][:most]
