"""Charts of sweeps."""

import doctest
import sys
import unittest
from decimal import Decimal
from xml.etree import ElementTree

from mcf_plan import chart
from mcf_plan.chart import bending, svg_chart, ticks
from mcf_plan.sweep import Point

SVG = "{http://www.w3.org/2000/svg}"


def points(*costs):
    """Points at 0, 1, 2, ..; None is no plan."""
    return [
        Point(Decimal(value), None if cost is None else Decimal(cost), Decimal(1) if cost is None else None)
        for value, cost in enumerate(costs)
    ]


def drawn(rows, **words):
    """The texts, circles and coloured grounds of a chart."""
    root = ElementTree.fromstring(svg_chart(rows, title="<Cost> & more", across="capacity", up="cost", **words))
    texts = [text.text for text in root.iter(SVG + "text")]
    return texts, list(root.iter(SVG + "circle")), list(root.iter(SVG + "rect"))[1:]


class Chart(unittest.TestCase):
    def test_bending(self):
        for costs, bends in (
            ((9, 8, 7), [0, 2]),
            ((9, 7, 6, 5), [0, 1, 3]),
            ((None, 9, 8, 7, None, 3), [1, 3, 5]),
            ((None, None), []),
            ((4,), [0]),
            (("0.3", "0.2", "0.1"), [0, 2]),
        ):
            self.assertEqual(bending(points(*costs)), bends, costs)

    def test_drawn(self):
        texts, circles, grounds = drawn(points(None, 9, 7, 6, 5, None), now=Decimal(3))
        self.assertIn("<Cost> & more", texts)
        self.assertIn("now 3", texts)
        self.assertEqual(texts.count("no plan"), 2)
        self.assertEqual((len(circles), len(grounds)), (4, 2))
        for cost in ("9", "7", "5"):
            self.assertIn(cost, texts)
        heights = [float(circle.get("cy")) for circle in circles]
        self.assertEqual(heights, sorted(heights), "what is cheaper stands lower")

    def test_odd_ones(self):
        for rows in (
            points(None),
            points(5),
            points(5, 5),
            points(0, 10**30),
            points(*range(200)),
            points("-0.001", 0),
        ):
            texts, _, _ = drawn(rows)
            self.assertTrue(texts)
        with self.assertRaises(ValueError):
            svg_chart([], title="", across="", up="")

    def test_ticks(self):
        for least, greatest in ((0.0, 1.0), (-7.5, 3.25), (1e-9, 3e-9), (1e12, 1e12 + 10), (0.0, 9.9e29)):
            found = [float(tick) for tick in ticks(least, greatest)]
            self.assertTrue(3 <= len(found) <= 12, found)
            around = (greatest - least) * 1e-6
            self.assertTrue(all(least - around <= tick <= greatest + around for tick in found), found)

    def test_examples(self):
        self.assertEqual(doctest.testmod(chart).failed, 0)


if __name__ == "__main__":
    sys.exit(unittest.main())
