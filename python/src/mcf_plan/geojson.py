"""Maps (GeoJSON): places from points, roads from lines, with where they stand for the picture."""

from __future__ import annotations

import json
from decimal import Decimal
from pathlib import Path
from typing import Any, Dict, List, NamedTuple, Optional, Sequence, Tuple

from .cells import LACKING, CellFault, TableFault, name_of
from .columns import folded, match_of
from .sheets import Sheet

Point = Tuple[float, ...]
_GEOMETRIES = ("Point", "LineString", "Polygon", "MultiPoint", "MultiLineString", "MultiPolygon", "GeometryCollection")


class _Feature(NamedTuple):
    """A feature of a map by its number, with its properties, and its first and last position."""

    number: int
    properties: Dict[str, Any]
    first: Point
    last: Point


def read_map(path: Path) -> Tuple[Optional[Sheet], Optional[Sheet]]:
    """The sheets of the points and of the lines of a FeatureCollection; None where there is none of them.

    A line without the properties `from` and `to` leads from the point where it begins to the point where it ends, where
    these are exactly there. Raises TableFault where it has no such points.
    """
    features = _features(path)
    points: List[_Feature] = []
    lines: List[_Feature] = []
    others: Dict[str, int] = {}
    for number, feature in enumerate(features, 1):
        place = f"{path.name}, feature {number}"
        if feature is None:
            others["None"] = others.get("None", 0) + 1
            continue
        if not isinstance(feature, dict) or feature.get("type") in _GEOMETRIES:
            raise TableFault(f"{place}: this is no feature, which has a geometry and properties")
        geometry, properties = feature.get("geometry") or {}, feature.get("properties") or {}
        if not isinstance(geometry, dict) or not isinstance(properties, dict):
            raise TableFault(f"{place}: its geometry and its properties have to be objects, or null")
        kind = geometry.get("type")
        if kind not in ("Point", "LineString"):
            if not str(kind).startswith("Multi"):
                _check_unused(place, kind, properties)
            others[str(kind)] = others.get(str(kind), 0) + 1
            continue
        ends = _positions(place, kind, geometry.get("coordinates"))
        properties = dict(properties)
        if "id" in feature and not any(match_of(name, ["node", "name"]) for name in properties):
            properties["id"] = feature["id"]
        (points if kind == "Point" else lines).append(_Feature(number, properties, ends[0], ends[-1]))
    if "MultiLineString" in others or "MultiPoint" in others:
        raise TableFault(f"{path.name}: there are features of several points or lines in one; part them in single ones")
    nodes = _sheet(path.name, points, is_points=True) if points else None
    arcs = _sheet(path.name, lines, is_points=False) if lines else None
    if arcs is not None:
        _add_ends(arcs, lines, points)
    for kind, count in others.items():
        told = (arcs or nodes or Sheet(path.name, [], [], [])).notes
        is_one = "is" if count == 1 else "are"
        what = f"{is_one} a {kind}, and" if kind != "None" else f"without a geometry {is_one}"
        told.append(f"{path.name}: {count} of its features {what} left aside")
    if nodes is None and arcs is None:
        raise TableFault(f"{path.name}: there are neither points nor lines")
    return nodes, arcs


def _check_unused(place: str, kind: Any, properties: Dict[str, Any]) -> None:
    """Raises TableFault where a feature that is neither a point nor a line says what a place or a road does."""
    said = set()
    for key, value in properties.items():
        match = match_of(key, ["supply", "demand", "from", "to"])
        # A supply of 0 is none, and a node may be called 0.
        if match is not None and (value or value == 0 and match.what in ("from", "to")):
            said.add(match.what)
    if said & {"supply", "demand"} or said >= {"from", "to"}:
        what = "it has no geometry" if kind is None else f"its geometry is a {kind}"
        needed = "a place is a Point" if said & {"supply", "demand"} else "a road is a LineString"
        raise TableFault(f"{place}: {what}, and {needed}; give it one, or give two tables in place of the map")


def _features(path: Path) -> List[Any]:
    """The features of the file. Raises TableFault where it is no FeatureCollection."""
    try:
        told = json.loads(path.read_bytes().decode("utf-8-sig"), parse_float=Decimal, object_pairs_hook=_object)
    except UnicodeDecodeError:
        raise TableFault(f"{path.name}: this is no UTF-8, as GeoJSON has to be") from None
    except _Twice as twice:
        raise TableFault(f"{path.name}: an object has {str(twice)!r} twice, and one of them would be lost") from None
    except (ValueError, RecursionError) as error:
        raise TableFault(f"{path.name}: this is no JSON: {error}") from None
    if (
        not isinstance(told, dict)
        or told.get("type") != "FeatureCollection"
        or not isinstance(told.get("features"), list)
    ):
        raise TableFault(f"{path.name}: this is JSON, and no FeatureCollection of points and lines (GeoJSON)")
    features: List[Any] = told["features"]
    return features


class _Twice(Exception):
    """An object has a key twice; the message is the key."""


def _object(pairs: List[Tuple[str, Any]]) -> Dict[str, Any]:
    """An object of the file. Raises _Twice where two of its values have one key."""
    found = dict(pairs)
    if len(found) < len(pairs):
        keys = [key for key, _ in pairs]
        raise _Twice(next(key for key in keys if keys.count(key) > 1))
    return found


def _positions(place: str, kind: str, coordinates: Any) -> List[Point]:
    """The positions of a point or a line. Raises TableFault where they are none."""
    positions = [coordinates] if kind == "Point" else coordinates
    try:
        found = [tuple(float(number) for number in position[:2]) for position in positions]
    except (TypeError, ValueError, OverflowError):
        found = []
    if len(found) < (1 if kind == "Point" else 2) or any(len(position) != 2 for position in found):
        raise TableFault(f"{place}: its coordinates are not those of a {kind}")
    return found


def _sheet(name: str, features: Sequence[_Feature], *, is_points: bool) -> Sheet:
    """The sheet of the features' properties; points have x and y of their position."""
    header = list(dict.fromkeys(key for feature in features for key in feature.properties))
    if is_points:
        header = [key for key in header if match_of(key, ["x", "y"]) is None]
    columns: List[Sequence[Any]] = [
        [_cell(feature.properties.get(key, LACKING)) for feature in features] for key in header
    ]
    if is_points:
        header += ["x", "y"]
        columns += [[feature.first[0] for feature in features], [feature.first[1] for feature in features]]
    what = "points" if is_points else "lines"
    return Sheet(f"{name}, {what}", header, columns, [feature.number for feature in features], "feature")


def _cell(value: Any) -> Any:
    """A property as a cell: null is empty."""
    if value is None:
        return ""
    return str(value) if isinstance(value, (dict, list)) else value


def _add_ends(arcs: Sheet, lines: Sequence[_Feature], points: Sequence[_Feature]) -> None:
    """Fills in `from` and `to` of the lines that have neither. Raises TableFault where no point is at an end."""
    matches = [(place, match_of(key, ["from", "to"])) for place, key in enumerate(arcs.header)]
    said = [(place, match.what) for place, match in matches if match is not None]
    keys = [arcs.header[place] for place, _ in said]
    bare = [row for row, line in enumerate(lines) if all(line.properties.get(key) is None for key in keys)]
    if not bare or said and sorted(what for _, what in said) != ["from", "to"]:
        return
    names = _names_by_position(arcs, points)
    places = {what: place for place, what in said}
    for what in ("from", "to"):
        if what not in places:
            places[what] = len(arcs.header)
            arcs.header.append(what)
            arcs.columns.append([""] * len(lines))
        cells = list(arcs.columns[places[what]])
        for row in bare:
            end = lines[row].first if what == "from" else lines[row].last
            if end not in names:
                raise TableFault(
                    f"{arcs.name}, feature {lines[row].number}: it has no property {what!r}, and no point with a name "
                    f"stands exactly where it {'begins' if what == 'from' else 'ends'}, at {end[0]:.15g}, {end[1]:.15g}"
                )
            cells[row] = names[end]
        arcs.columns[places[what]] = cells
    which = "each line" if len(bare) == len(lines) else "each line without 'from' and 'to'"
    arcs.notes.append(f"{arcs.name}: {which} leads from the point where it begins to the point where it ends")


def _names_by_position(arcs: Sheet, points: Sequence[_Feature]) -> Dict[Point, str]:
    """The names of the points by where they stand. Raises TableFault where two stand at one place."""
    names: Dict[Point, str] = {}
    for point in points:
        name = _name(point)
        if name is not None:
            if names.setdefault(point.first, name) != name:
                raise TableFault(
                    f"{arcs.name}: two points, {names[point.first]!r} and {name!r}, stand at one place, so the lines "
                    "need properties 'from' and 'to'"
                )
    return names


def _name(point: _Feature) -> Optional[str]:
    """The name of a point, by the first of its properties that is one."""
    found = [(key, value) for key, value in point.properties.items() if match_of(key, ["node"]) and value is not None]
    found.sort(key=lambda pair: folded(pair[0]) not in ("name", "nom", "nombre"))
    return _written(found[0][1]) if found else None


def _written(value: Any) -> str:
    """A name as the table of points will have it; a value that is none is refused there."""
    try:
        return name_of(value)
    except CellFault:
        return str(value)
