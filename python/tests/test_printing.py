"""What is printed of names: a terminal obeys none of it."""

import io
import json
import sys
import unittest

from mcf_plan import Problem, Session
from mcf_plan.conversation import Conversation
from mcf_plan.printing import print_table, say, tell, visible
from mcf_plan.report import to_json

ODD = "Ulm\x1b[2J\x9b31m\u202e\udcff\x07"
"""A name that clears the screen, changes the colour by a control of eight bits, turns the direction of writing, has a
byte that is no UTF-8, and rings."""
SHOWN = "Ulm\\u001b[2J\\u009b31m\\u202e\\xff\\u0007"


def odd_problem() -> Problem:
    """A plan in which each name is odd, and 1 stays at a node of such a name."""
    problem = Problem()
    problem.add_node(ODD, 3)
    problem.add_node("Kiel", -2)
    problem.add_arc(ODD, "Kiel", cap=5, cost=1, name=ODD + "\n")
    return problem


class Printing(unittest.TestCase):
    def test_visible(self) -> None:
        for text, shown in (
            ("Kiel", "Kiel"),
            ("S\u00e3o Paulo, 東京, Ελλάδα, 🚚", "S\u00e3o Paulo, 東京, Ελλάδα, 🚚"),
            ("New\u00a0York", "New\u00a0York"),
            ("\u0645\u06cc\u200c\u062f\u0648", "\u0645\u06cc\u200c\u062f\u0648"),
            ("a\tb\r\nc", "a\\u0009b\\u000d\\u000ac"),
            ("\u2028\u2066\U000e0041", "\\u2028\\u2066\\U000e0041"),
            (ODD, SHOWN),
        ):
            with self.subTest(shown):
                self.assertEqual(visible(text), shown)

    def test_nothing_odd_is_printed(self) -> None:
        out = io.StringIO()
        tell(odd_problem().solve(surplus="keep"), out)
        tell(odd_problem().solve(), out)
        say(f"two lines\nof {ODD}", out)
        print_table([[ODD, "flow"], ["Kiel", "1"]], 1, out)
        with Session(odd_problem(), surplus="keep") as session:
            talk = Conversation(session, out)
            talk.run(io.StringIO(f'cap nowhere{ODD} 3\nmark "{ODD}"\nmoments\nshow\nsaves\nsupply Kiel -4\nwhy\n'))
        printed = out.getvalue()
        self.assertIn(SHOWN, printed)
        self.assertTrue(printed.replace("\n", "").isprintable(), repr(printed))

    def test_json_is_printable_and_reads_back(self) -> None:
        text = to_json(odd_problem().solve(surplus="keep"))
        self.assertTrue(text.replace("\n", "").isprintable(), repr(text))
        self.assertEqual(json.loads(text)["arcs"][0]["from"], ODD)


if __name__ == "__main__":
    sys.exit(unittest.main())
