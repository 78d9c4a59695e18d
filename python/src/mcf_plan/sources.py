"""Which file or sheet has the nodes, and which the arcs."""

from __future__ import annotations

from pathlib import Path
from typing import Any, List, Optional, Sequence, Tuple, Union

from .cells import TableFault
from .columns import folded, says
from .matrices import is_matrix_of
from .sheets import MAPS, WORKBOOKS, Sheet, check_ending, part_sheet, read_text, sheet_of_frame

Source = Union[str, Path, Any]
"""A path of a .csv, .tsv, .xlsx or .geojson file, of a sheet as `book.xlsx:Orte`, or a pandas DataFrame."""

NODE_SHEETS = (
    "nodes node places place towns cities sites locations supplies knoten orte ort standorte stadte noeuds lieux "
    "villes sites sommets nodos lugares ciudades sitios nodi luoghi citta siti nos locais cidades knooppunten plaatsen "
    "steden locaties"
).split()
ARC_SHEETS = (
    "arcs arc edges roads links routes lanes connections kanten wege strecken strassen verbindungen arcs liaisons "
    "aretes routes trajets arcos aristas rutas caminos carreteras enlaces archi strade tratte collegamenti rotte rotas "
    "estradas caminhos ligacoes wegen verbindingen trajecten"
).split()
"""The names that the sheets of a workbook may have, whatever the letters' size and accents."""


def find_sheets(nodes: Sequence[Source], arcs: Source, encoding: Optional[str]) -> Tuple[List[Sheet], Sheet]:
    """The sheets of nodes, and that of arcs; one file may have all."""
    if not nodes and isinstance(arcs, (str, Path)):
        path, name = part_sheet(arcs)
        if path.suffix.lower() in MAPS:
            from .geojson import read_map

            points, lines = read_map(path)
            if lines is None:
                raise TableFault(f"{path.name}: there is no line, and roads are lines")
            return [] if points is None else [points], lines
        if path.suffix.lower() in WORKBOOKS and name is None:
            return _both_of_workbook(path)
    return [_sheet(each, NODE_SHEETS, encoding) for each in nodes], _sheet(arcs, ARC_SHEETS, encoding)


def _sheet(source: Source, names: Sequence[str], encoding: Optional[str]) -> Sheet:
    """The sheet of one source; of a workbook of several the one that has one of these names."""
    if not isinstance(source, (str, Path)):
        return sheet_of_frame(source, f"the frame of {'nodes' if names is NODE_SHEETS else 'arcs'}")
    path, name = part_sheet(source)
    check_ending(path)
    if path.suffix.lower() in MAPS:
        from .geojson import read_map

        points, lines = read_map(path)
        sheet = points if names is NODE_SHEETS else lines
        if sheet is None:
            raise TableFault(f"{path.name}: there is no {'point' if names is NODE_SHEETS else 'line'}")
        return sheet
    if path.suffix.lower() not in WORKBOOKS:
        return read_text(path, encoding)
    from .workbook import read_sheet, sheet_names

    if name is None:
        there = sheet_names(path)
        fitting = [each for each in there if folded(each) in names] if len(there) > 1 else there
        if len(fitting) != 1:
            raise TableFault(_which_sheet(path, there))
        name = fitting[0]
    return read_sheet(path, name)


def _both_of_workbook(path: Path) -> Tuple[List[Sheet], Sheet]:
    """The sheets of nodes and of arcs of one workbook; a workbook of one sheet has the arcs."""
    from .workbook import read_sheet, sheet_names

    there = sheet_names(path)
    if len(there) == 1:
        return [], read_sheet(path, there[0])
    names = _by_names(there)
    if not names:
        if any(len([each for each in there if folded(each) in of_kind]) > 1 for of_kind in (NODE_SHEETS, ARC_SHEETS)):
            raise TableFault(_which_sheet(path, there))
        return _by_columns(path, there)
    sheets = read_sheet(path, names[0]), read_sheet(path, names[1])
    rest = [repr(each) for each in there if each not in names]
    if rest:
        words = f"the sheet {rest[0]} is" if len(rest) == 1 else f"the sheets {', '.join(rest)} are"
        sheets[1].notes.append(f"{path.name}: {words} left aside")
    return [sheets[0]], sheets[1]


def _by_names(there: Sequence[str]) -> List[str]:
    """The sheet of nodes, and that of arcs, by their names; none where these do not say it."""
    nodes = [each for each in there if folded(each) in NODE_SHEETS]
    arcs = [each for each in there if folded(each) in ARC_SHEETS]
    return [*nodes, *arcs] if len(nodes) == len(arcs) == 1 and nodes != arcs else []


def _by_columns(path: Path, there: Sequence[str]) -> Tuple[List[Sheet], Sheet]:
    """The sheets of nodes, and that of arcs, of a workbook, by their columns, where their names do not say it. Each has to
    be one of them."""
    from .workbook import read_sheet

    try:
        sheets = [read_sheet(path, name) for name in there]
    except TableFault:
        if len(there) <= 2:
            raise
        raise TableFault(_which_sheet(path, there)) from None
    nodes = [sheet for sheet in sheets if _has_nodes(sheet)]
    rest = [sheet for sheet in sheets if not _has_nodes(sheet)]
    if len(rest) != 1 or not nodes:
        raise TableFault(_which_sheet(path, there))
    arcs = rest[0]
    if not (says(arcs, "from") and says(arcs, "to") or is_matrix_of(arcs, nodes)):
        raise TableFault(_which_sheet(path, there))
    names, have = " and ".join(sheet.name for sheet in nodes), "has" if len(nodes) == 1 else "have"
    arcs.notes.append(f"{names} {have} the nodes, and {arcs.name} the arcs, by the names of their columns")
    return nodes, arcs


def _has_nodes(sheet: Sheet) -> bool:
    """Whether a sheet has nodes, by its columns."""
    is_supplied = says(sheet, "supply") or says(sheet, "demand")
    return says(sheet, "node") and is_supplied and not says(sheet, "from") and not says(sheet, "to")


def sheets_read(path: Path, name: Optional[str], *, is_alone: bool) -> Sequence[str]:
    """The names of the sheets of a workbook that are read where it is named, or one of its sheets. `is_alone` says that no
    other table is."""
    from .workbook import sheet_names

    if name is not None:
        return [name]
    there = sheet_names(path)
    if len(there) <= 2 or is_alone:
        return _by_names(there) or there
    return [each for each in there if folded(each) in (*NODE_SHEETS, *ARC_SHEETS)]


def _which_sheet(path: Path, there: Sequence[str]) -> str:
    if not there:
        return f"{path.name}: all its sheets are empty"
    return (
        f"{path.name}: which of its sheets {', '.join(map(repr, there))} has the nodes, and which the arcs? Call them "
        f"nodes and arcs, or write {path.name}:SHEET for each, that of arcs last"
    )
