"""Whole numbers in place of decimals: all amounts, or all costs, times one power of ten, and back."""

from __future__ import annotations

from decimal import Decimal
from typing import Iterable, List, Optional, cast

from .errors import DoesNotFit
from .problem import ONE, WIDE, ZERO


def places_of(numbers: Iterable[Optional[Decimal]]) -> int:
    """How many decimals the numbers have at most.

    >>> places_of([Decimal("1.25"), None, Decimal("3.5000"), Decimal("1E+2")])
    2
    """
    places, step, remainder = 0, ONE, WIDE.remainder
    for number in numbers:
        # Far quicker than to look at the exponent of each.
        if number and remainder(number, step):
            places = -int(number.normalize(WIDE).as_tuple().exponent)
            step = ONE.scaleb(-places, WIDE)
    return places


class Scale:
    """One power of ten by which decimals become whole numbers: `units` is 10^`places`.

    >>> scale = Scale(2)
    >>> scale.whole(Decimal("1.5")), scale.decimal(150)
    (150, Decimal('1.5'))
    """

    def __init__(self, places: int):
        self.places = places
        self.units = Decimal(10) ** places

    @classmethod
    def of(cls, *columns: Iterable[Optional[Decimal]]) -> Scale:
        """The least scale that makes all numbers whole."""
        return cls(max(map(places_of, columns), default=0))

    def whole(self, number: Decimal) -> int:
        """The number in small units. Raises DoesNotFit where it is no whole number of them."""
        return self.wholes((number,))[0]

    def wholes(self, numbers: Iterable[Decimal]) -> List[int]:
        """The numbers in small units. Raises DoesNotFit where one is no whole number of them."""
        return cast(List[int], self.wholes_or_none(numbers))

    def wholes_or_none(self, numbers: Iterable[Optional[Decimal]]) -> List[Optional[int]]:
        """The numbers in small units; None stays None. Raises DoesNotFit as `wholes` does."""
        multiply, units = WIDE.multiply, self.units
        results: List[Optional[int]] = []
        for number in numbers:
            if number:
                product = multiply(number, units)
                result = int(product)
                if result != product:
                    raise DoesNotFit
                results.append(result)
            else:
                results.append(None if number is None else 0)
        return results

    def decimal(self, number: int) -> Decimal:
        """The number of small units as a decimal, without zeros at its end."""
        places = self.places
        if not number:
            return ZERO
        while places and not number % 10:
            number //= 10
            places -= 1
        return Decimal(number).scaleb(-places, WIDE) if places else Decimal(number)
