"""Units in the names of columns: `capacity (t)`, `cost_eur`, `cost [EUR/t]`, `Angebot (t/Woche)`."""

from __future__ import annotations

import re
import unicodedata
from typing import Dict, FrozenSet, NamedTuple, Optional, Tuple

_MONEY = "eur euro euros € usd dollar dollars $ us$ gbp pound pounds £ chf franken francs jpy yen ¥ pln czk sek nok dkk brl r$"
_CENTS = "ct cent cents c"
_SAME: Dict[str, str] = {
    "t": "t to ton tons tonne tonnes tonnen tonelada toneladas tonnellata tonnellate tn",
    "kg": "kg kilo kilos kilogram kilograms kilogramm",
    "g": "g gram grams gramm",
    "lb": "lb lbs pound pounds",
    "l": "l liter litre liters litres litro litros",
    "hl": "hl",
    "m3": "m3 m³ cbm",
    "unit": "unit units piece pieces pc pcs stk stück stueck stuck einheit einheiten ea each unite unites unidad "
    "unidades ud uds pieza piezas unita pezzo pezzi unidade peca pecas stuk stuks eenheid eenheden",
    "pallet": "pallet pallets palette palettes paletten pal pale pales",
    "container": "container containers contenedor contenedores conteneur conteneurs",
    "teu": "teu evp",
    "box": "box boxes kiste kisten caja cajas caisse caisses carton cartons scatola scatole caixa caixas doos dozen",
    "truck": "truck trucks lkw camion camions camiones",
    "mw": "mw",
    "mwh": "mwh",
    "kwh": "kwh",
    "gb": "gb",
    "mbit": "mbit",
    "person": "person persons people personen personnes personas",
    "vehicle": "vehicle vehicles veh",
}
_SPANS: Dict[str, str] = {
    "s": "s sec second seconds",
    "hour": "h hr hour hours stunde stunden std heure heures hora horas ora ore uur",
    "day": "d day days daily tag tage jour jours dia dias giorno giorni dag dagen",
    "week": "w week weeks weekly woche wochen semaine semaines semana semanas settimana settimane weken",
    "month": "month months monthly monat monate mois mes meses mese mesi maand maanden",
    "year": "y a year years yearly jahr jahre an ans ano anos anno anni jaar jaren",
}
_NUMBERS = frozenset("1 10 100 1000 10000 1000000 k thousand tausend mille mil mio million".split())
_BETWEEN = frozenset("per pro je par por in en al alla ao".split())


def _table(words: Dict[str, str]) -> Dict[str, str]:
    return {word: name for name, spelled in words.items() for word in spelled.split()}


_AMOUNTS, _TIMES = _table(_SAME), _table(_SPANS)
_COINS = frozenset((*_MONEY.split(), *_CENTS.split()))


_SPELLED = {"€": "eur", "euro": "eur", "euros": "eur", "$": "usd", "us$": "usd", "dollar": "usd", "dollars": "usd"}
_SPELLED.update(
    {"£": "gbp", "pound": "gbp", "pounds": "gbp", "¥": "jpy", "yen": "jpy", "franken": "chf", "francs": "chf"}
)


class Unit(NamedTuple):
    """A unit as it stands, and what it is made of: what is counted or paid, for how much of what, and for what time."""

    text: str
    base: str
    per: FrozenSet[str]
    time: str

    @property
    def told(self) -> str:
        """The unit in a sentence, as `in EUR` or `per t`."""
        return f"in {self.text}" if self.base else self.text

    def agrees(self, other: Unit) -> bool:
        """Whether two amounts may be in one unit: they count the same, and in the same time where both name one."""
        return self.base == other.base and (not self.time or not other.time or self.time == other.time)

    def of_amount(self) -> Optional[Unit]:
        """The unit as that of an amount; None where it is none, as what fits in a truck is no amount of an arc."""
        return None if self.per else self

    def of_cost(self, *, is_named: bool) -> Optional[Unit]:
        """The unit as that of a cost; None where it is none, as of a rate in tonnes a day, or of what is paid for a
        time. Where a column `is_named` a cost, a unit of amounts is what it is for: `cost_t` is one for each tonne."""
        if self.base not in _SAME:
            return None if self.is_for_a_time else self
        if self.per or self.time or not is_named:
            return None
        return Unit(f"per {self.text}", "", frozenset((self.base,)), "")

    @property
    def coin(self) -> str:
        """What is counted or paid, by one word for each currency."""
        return _SPELLED.get(self.base, self.base)

    def may_be(self, other: Unit) -> bool:
        """Whether numbers may be in both units: one of them may say less than the other."""
        return (
            (not self.base or not other.base or self.coin == other.coin)
            and (not self.per or not other.per or self.per == other.per)
            and (not self.time or not other.time or self.time == other.time)
        )

    @property
    def is_money(self) -> bool:
        """Whether it says what is paid."""
        return self.base != "" and self.base not in _SAME

    @property
    def is_for_a_time(self) -> bool:
        """Whether it is what is paid for a time, and not for an amount, as a rent is."""
        return self.base not in _SAME and self.time != "" and not self.per

    @property
    def is_of_many(self) -> bool:
        """Whether a cost is for a number of units together, as 1000."""
        return any(name not in _SAME for name in self.per)

    def is_per(self, amount: Unit) -> bool:
        """Whether a cost may be for one unit of this amount."""
        return not self.per or self.per == frozenset((amount.base,))


def unit_of(text: str) -> Optional[Unit]:
    """The unit that a text names; None where it is not one that is known, as for lengths: a cost for each kilometre is
    not that of a unit.

    >>> unit_of("EUR/t").per, unit_of("in t per week").time, unit_of("fixed"), unit_of("EUR/km")
    (frozenset({'t'}), 'week', None, None)
    >>> unit_of("EUR per 100 kg").per
    frozenset({'100kg'})
    """
    bare = unicodedata.normalize("NFKD", text.casefold())
    bare = "".join(c for c in bare if not unicodedata.combining(c)).replace("₂", "2")
    words = [word for word in re.split(r"[\s_\-.,]+|(/)", bare) if word]
    while words and words[0] in ("in", "en"):
        words = words[1:]
    if not words:
        return None
    base, time, per = "", "", []
    scale = of_per = ""
    is_behind = False
    for word in words:
        digits = re.fullmatch(r"(\d+)?(.*)", word)
        assert digits is not None
        if word == "/" or word in _BETWEEN:
            is_behind = True
        elif word in _NUMBERS and is_behind:
            of_per = "" if word == "1" else word
        elif word in _NUMBERS and not base:
            scale = word
        elif word in _COINS or word in ("k€", "t€", "keur", "teur"):
            if base or is_behind:
                return None
            base = word
        elif word in _TIMES and is_behind:
            time = _TIMES[word]
        elif (digits[2] if digits[1] else word) in _AMOUNTS:
            name = (digits[1] or "") + _AMOUNTS[digits[2] if digits[1] else word]
            if is_behind:
                per.append(of_per + name)
                of_per = ""
            elif base:
                return None
            else:
                base = name
        elif word in ("daily", "weekly", "monthly", "yearly"):
            time = _TIMES[word]
        else:
            return None
    if of_per or not base and not per and not time:
        return None
    text = re.sub(r"^(in|en)\s+", "", " ".join(text.split()).strip(" _-.:"), flags=re.IGNORECASE)
    return Unit(text, scale + base, frozenset(per), time)


_DIGITS = r"[.,]?\d(?:[\d.,'\u2019\s]*\d)?"
_BEHIND = re.compile(rf"([+\-\u2212]?{_DIGITS})\s*([^\W\d_].*|[€$£¥/].*)")
_BEFORE = re.compile(rf"([+\-\u2212]?)\s*([^\W\d_]*[€$£¥]|[^\W\d_]+)\s*([+\-\u2212]?{_DIGITS})")


def number_and_unit(cell: str) -> Optional[Tuple[str, str]]:
    """The number in a cell, and the unit that stands behind it, or before it where it is one of money; None where there is
    no unit that is known.

    >>> number_and_unit("-€ 2.50"), number_and_unit("1 250,5 t"), number_and_unit("5 h"), number_and_unit("t 5")
    (('-2.50', '€'), ('1 250,5', 't'), None, None)
    """
    behind, before = _BEHIND.fullmatch(cell.strip()), _BEFORE.fullmatch(cell.strip())
    if behind and unit_of(behind[2]) is not None:
        return behind[1], behind[2]
    unit = unit_of(before[2]) if before else None
    if before and unit is not None and unit.is_money and not (before[1] and before[3][0] in "+-\u2212"):
        return before[1] + before[3], before[2]
    return None


def is_amount(text: str) -> bool:
    """Whether a text is the unit of an amount, as a name of a column alone.

    >>> is_amount("tonnes/week"), is_amount("EUR"), is_amount("km")
    (True, False, False)
    """
    unit = unit_of(text)
    return unit is not None and unit.base in _SAME
