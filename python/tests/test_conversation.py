"""What-if in words: groups that are refused as a whole, and commands that are not understood."""

import io
import sys
import unittest
from typing import Iterator, List, Optional

from mcf_plan import Arc, Problem, Session
from mcf_plan.conversation import Conversation


def roads() -> Problem:
    """5 go from a by two roads; the cheap one is full. Cost 3 * 1 + 2 * 4."""
    problem = Problem()
    problem.add_node("a", 5)
    problem.add_node("b", -5)
    problem.add_arc("a", "b", cap=3, cost=1, name="cheap")
    problem.add_arc("a", "b", cap=9, cost=4, name="dear")
    return problem


def answers(*lines: str, problem: Optional[Problem] = None) -> List[str]:
    """What is said to these lines, each behind its line, and at the end the cost and whether something can be undone."""
    out = io.StringIO()
    with Session(problem or roads()) as session:
        Conversation(session, out).run(io.StringIO("".join(line + "\n" for line in lines)))
        said = out.getvalue().splitlines()
        said.append(f"{session.cost} {session.can_undo}")
    return [line for line in said[1:] if not line.startswith("what if> ")]


REFUSED = "; the whole group is refused, and its lines up to `end` are passed over"


class Names(unittest.TestCase):
    def test_other_forms_of_letters(self) -> None:
        """A name may have been typed with letters and accents apart, as some systems write them."""
        problem = Problem()
        problem.add_node("K\u00f6ln", 1)
        problem.add_node("Ulm", -1)
        problem.add_arc("K\u00f6ln", "Ulm", cost=2)
        lines = ("cost Ko\u0308ln Ulm 3", "cost 'Ko\u0308ln to Ulm' 4", "supply Ko\u0308ln 2")
        self.assertEqual(
            answers(*lines, problem=problem),
            ["cost 3 (1 more)", "cost 4 (1 more)", "no plan: short by 1; `why` tells more", "None True"],
        )

    def test_several_arcs_of_one_name(self) -> None:
        problem = roads()
        for _ in range(2):
            problem.add_arc("a", "b", cap=1, cost=9, name="A 7")
        self.assertEqual(
            answers("cap 'A 7' 2", "cap '#3' 2", problem=problem)[:2],
            [
                "refused, nothing is changed: there are several arcs A 7: say which by its number: they are #3, #4",
                "cost 11, as before",
            ],
        )

    def test_no_limit_in_words(self) -> None:
        for word in ("inf", "∞", "unlimited", "Unbegrenzt", "'no limit'"):
            self.assertEqual(answers(f"cap cheap {word}"), ["cost 5 (6 less)", "5 True"], word)
            self.assertEqual(answers(f"add a b cost 1 cap {word}"), ["cost 5 (6 less)", "5 True"], word)
        self.assertIn("has to be a decimal number", answers("cost cheap unlimited")[0])

    def test_the_minus_sign_of_a_text(self) -> None:
        self.assertEqual(answers("supply b \N{MINUS SIGN}4", "supply a 4"), answers("supply b -4", "supply a 4"))

    def test_numbers_are_no_misspelled_names(self) -> None:
        problem = roads()
        problem.add_arc("a", "b", cap=1, cost=9, name="r5")
        for line, reason in (
            ("cap b a 5", "no arc b to a"),
            ("cap #5 5", "no arc #5 among 3 arcs"),
            ("cap r5x 5", "r5?"),
        ):
            self.assertTrue(answers(line, problem=problem)[0].endswith(reason), line)

    def test_misspelled_names_of_many_arcs(self) -> None:
        """A line that is refused does not look at each arc."""

        class Arcs(List[Arc]):
            """Arcs that are not to be gone through."""

            def __iter__(self) -> Iterator[Arc]:
                raise AssertionError("all arcs are looked at")

        out = io.StringIO()
        with Session(roads()) as session:
            conversation = Conversation(session, out)
            conversation.answer("cap cheap 4")
            session.problem.arcs = Arcs(session.problem.arcs)
            conversation.answer("cap cheep 1")
        self.assertIn("did you mean cheap?", out.getvalue())


class Groups(unittest.TestCase):
    def test_group(self) -> None:
        self.assertEqual(answers("group", "cap cheap 4", "cost dear 5", "end"), ["cost 9 (2 less)", "9 True"])
        self.assertEqual(answers("group", "end"), ["cost 11, as before", "11 True"])

    def test_refused_line_refuses_the_whole_group(self) -> None:
        """As in `mcf session`: the lines before and after the refused one change nothing, up to `end` and not on."""
        for refused, reason in (
            ("cap nix 3", "there is no arc nix"),
            ("cap cheap x", "the capacity is 'x', and has to be a decimal number"),
            ("supply nowhere 3", "there is no node nowhere"),
            ("group", "a group is open, and group has to wait for its end"),
            ("undo", "a group is open, and undo has to wait for its end"),
            ("show", "a group is open, and show has to wait for its end"),
            ("write a.min", "a group is open, and write has to wait for its end"),
            ("nonsense", "there is no command nonsense; `help` tells them"),
            (
                'cap "cheap 3',
                "a quotation mark or a backslash stands alone; names with blanks stand in quotes",
            ),
            ("end now", "end stands alone, and now stands behind it"),
        ):
            with self.subTest(refused):
                self.assertEqual(
                    answers("group", "cap cheap 4", refused, "cap cheap 5", "# remark", "", "end", "cost dear 5"),
                    [
                        f"refused: {reason}{REFUSED}",
                        "passed over",
                        f"the group is refused, nothing is changed: {reason}",
                        "cost 13 (2 more)",
                        "13 True",
                    ],
                )

    def test_a_refused_group_ends_at_its_end_in_any_letters(self) -> None:
        for end in ("end", "End", " END "):
            with self.subTest(end):
                self.assertEqual(answers("GROUP", "cap nix 3", end, "cap cheap 4")[-2:], ["cost 8 (3 less)", "8 True"])

    def test_what_is_refused_at_the_end(self) -> None:
        said = answers("group", "low cheap 4", "cap dear 8", "end", "undo")
        self.assertEqual(
            said,
            [
                "refused, nothing is changed: the lower bound of cheap would be 4, above its capacity, 3",
                "refused, nothing is changed: there is nothing to undo",
                "11 False",
            ],
        )

    def test_end_of_input_in_a_group(self) -> None:
        for lines in (("group", "cap cheap 4"), ("group", "cap cheap 4", "quit")):
            self.assertEqual(answers(*lines), ["the group has no end: none of its edits is made", "11 False"])
        said = answers("group", "cap cheap 4", "cap nix 3", "cap cheap 5")
        self.assertEqual(said[1:], ["passed over", "the group has no end: none of its edits is made", "11 False"])

    def test_end_without_a_group(self) -> None:
        self.assertEqual(answers("end"), ["refused, nothing is changed: no group is open", "11 False"])


class Words(unittest.TestCase):
    def test_arcs_by_their_ends(self) -> None:
        """As `ranges --only` takes them, quoted as one word too."""
        for which in ("#1", "a c", "a to c", '"a c"', '"a to c"'):
            with self.subTest(which):
                problem = Problem()
                problem.add_node("a", 1)
                problem.add_node("c", -1)
                problem.add_arc("a", "c", cap=3, cost=1)
                self.assertEqual(answers(f"cost {which} 2", problem=problem), ["cost 2 (1 more)", "2 True"])

    def test_what_one_more_adds_to_a_greatest_flow(self) -> None:
        problem = Problem("max", source="a", sink="c")
        problem.add_arc("a", "c", cap=3, name="pipe")
        self.assertEqual(answers("saves", problem=problem), ["arc   one more adds", "pipe              1", "3 False"])
        problem = Problem("max", source="a", sink="c")
        problem.add_arc("a", "b", cap=0)
        problem.add_arc("b", "c", cap=0)
        self.assertIn("no arc: one unit more of capacity adds nothing", answers("saves", problem=problem))

    def test_what_is_not_understood(self) -> None:
        for line, reason in (
            ("undo 3", "undo stands alone, and 3 stands behind it"),
            ("quit now", "quit stands alone, and now stands behind it"),
            ("cap", "cap wants an arc and a number; `help` tells more"),
            ("cap cheap", "cap wants an arc and a number; `help` tells more"),
            ("cap cheap 1,5", "1,5 is no number; write a point before the decimals, and nothing between thousands"),
            ("cap cheep 1", "there is no arc cheep; did you mean cheap?"),
            ("cap Cheap 1", "there is no arc Cheap; did you mean cheap?"),
            ("cap road9 1", "there is no arc road9"),
            ("cap 'road 9' 1", "there is no arc road 9"),
            ("close cheapp", "there is no arc cheapp; did you mean cheap?"),
            ("add a cheapp cap 3", "there is no node cheapp; did you mean cheap?"),
            ("cap a to b 1", "there are several arcs a to b: say which by its number: they are #1, #2"),
            ('cap "a b" 1', "there are several arcs a to b: say which by its number: they are #1, #2"),
            ('cap "a to b" 1', "there are several arcs a to b: say which by its number: they are #1, #2"),
            ("cap #3 1", "there is no arc #3 among 2 arcs"),
            ("supply a", "supply wants a node and a number; `help` tells more"),
            ("supply a b 1", "one name was expected, and 2 are there; names with blanks stand in quotes"),
            ("add a b cost 3 cost 5", "cost stands there twice, or under two names"),
            ("add a b cap 3 capacity 5", "capacity stands there twice, or under two names"),
            ("add a", "add wants both ends, and then pairs as `capacity 5 cost 2`; `help` tells more"),
            ("mark", "mark wants a name; `help` tells more"),
            ("mark my plan", "one name was expected, and 2 are there; names with blanks stand in quotes"),
            ("back", "back wants the name of a mark; `help` tells more"),
            ("report", "report wants the name of a file; `help` tells more"),
        ):
            with self.subTest(line):
                self.assertEqual(answers(line), [f"refused, nothing is changed: {reason}", "11 False"])


if __name__ == "__main__":
    sys.exit(unittest.main())
