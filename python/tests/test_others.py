"""Answers of other programs: what is right is made a text that `mcf check` accepts, what is spoilt is told."""

import doctest
import random
import re
import shutil
import subprocess
import tempfile
import unittest
from pathlib import Path
from typing import List, Optional, Tuple

from mcf_plan import others
from mcf_plan.dimacs import DimacsProblem, parse_answer
from mcf_plan.others import NotAnAnswer, answer_from
from mcf_plan.program import Program

TOP = Path(__file__).resolve().parents[2]
DIAMOND = (TOP / "examples/diamond/problem.min").read_text()
RIGHT = "s 14\nf 1 2 2\nf 1 3 2\nf 2 3 2\nf 2 4 0\nf 3 4 4\nv 1 -4\nv 2 -2\nv 3 -1\nv 4 0\n"


def drawn(draws: random.Random) -> DimacsProblem:
    """A small problem of kind min with a legal flow, or of kind max; parallel arcs are frequent."""
    kind = draws.choice(["min", "min", "max"])
    nodes = draws.randint(2, 8)
    arcs: List[Tuple[int, int, int, int, int]] = []
    for _ in range(draws.randint(1, 20)):
        tail, head = draws.sample(range(1, nodes + 1), 2)
        low = draws.choice([0, 0, 0, 1]) if kind == "min" else 0
        arcs.append((tail, head, low, low + draws.randint(0, 9), draws.randint(-5, 20) if kind == "min" else 0))
    if kind == "max":
        return DimacsProblem("max", nodes, arcs, {}, 1, nodes)
    supplies = dict.fromkeys(range(1, nodes + 1), 0)
    for tail, head, low, cap, _ in arcs:
        flow = draws.randint(low, cap)
        supplies[tail] += flow
        supplies[head] -= flow
    return DimacsProblem("min", nodes, arcs, supplies)


def run(*words: object) -> str:
    """What a command prints; it may fail."""
    return subprocess.run([str(word) for word in words], capture_output=True, text=True, timeout=120).stdout


class Others(unittest.TestCase):
    def setUp(self) -> None:
        self.program = Program()

    def accept(self, problem: str, answer: str, program: str) -> None:
        made = answer_from(problem, answer, program)
        self.assertEqual(self.program.check(problem, made), "valid", f"{problem}{answer}{made}")

    def refuse(self, words: str, answer: str, program: str = "flows", problem: str = DIAMOND) -> None:
        with self.assertRaises(NotAnAnswer) as raised:
            answer_from(problem, answer, program)
        self.assertEqual(str(raised.exception), words)

    def test_texts(self) -> None:
        flows = "f 1 2 2\nf 1 3 2\nf 2 3 2\nf 2 4 0\nf 3 4 4\n"
        for answer in [
            RIGHT,
            flows,
            "s 14\n" + flows,
            "2\n2\n2\n0\n4\n",
            "c said by another\n# or so\n\n" + flows,
            "f 3 4 4.0\nf 2 3 2\nf 1 3 2e0\nf 1 2 +2\n",
            flows.replace("\n", "\r\n"),
        ]:
            self.assertEqual(answer_from(DIAMOND, answer, "flows"), RIGHT, answer)
        raised = re.sub(r"^v (\d) (.*)$", lambda line: f"v {line[1]} {int(line[2]) + 77}", RIGHT, flags=re.M)
        self.assertEqual(answer_from(DIAMOND, raised, "lemon"), RIGHT)
        self.assertEqual(
            answer_from((TOP / "examples/starved/problem.min").read_text(), "c cut\ni 1\nk 1\n", "flows"), "i 1\nk 1\n"
        )

    def test_spoilt(self) -> None:
        self.refuse("the text is empty", "c nothing\n")
        self.refuse("there are 4 numbers, and 5 arcs", "2\n2\n2\n0\n")
        self.refuse("there are `f` lines and lines of one number", "f 1 2 2\n2\n")
        self.refuse("line 2: 1.5 is no whole number", "f 1 2 2\nf 1 3 1.5\n")
        self.refuse("line 2: sNaN is no whole number", "f 1 2 2\nf 1 3 sNaN\n")
        self.refuse("line 2: 1e999999999 has more than 60 digits", "f 1 2 2\nf 1 3 1e999999999\n")
        self.refuse(f"line 1: {60 * '9'} has more than 60 digits", "f 1 2 " + 5000 * "9" + "\n")
        self.refuse("line 1: no arc leads from 1 to 4", "f 1 4 2\n")
        self.refuse("line 3: a line too many for 1 to 2", "f 1 2 2\nf 3 4 1\nf 1 2 2\n")
        self.refuse("line 1: `x 1 2` is no `s`, `f` or `v` line, and no number", "x 1 2\n")
        self.refuse("there has to be one `v` line for each of the 4 nodes", RIGHT.replace("v 4 0\n", ""))
        self.refuse("arc 2 (1 to 3) carries 3, and its bounds are 0 and 2", "1\n3\n1\n0\n4\n")
        self.refuse("what leaves node 2 less what comes in is 1, and has to be 0", "2\n2\n2\n1\n4\n")
        self.refuse("the answer says that its flow is worth 13, and it is worth 14", RIGHT.replace("s 14", "s 13"))
        self.refuse(
            "by its potentials 1 unit more on arc 4 (2 to 4) would be worth more", RIGHT.replace("v 4 0", "v 4 2")
        )
        self.refuse(
            "the flow is not best: 1 unit more on arc 2 (1 to 3), 1 more on arc 5 (3 to 4), 1 less on arc 4 (2 "
            "to 4), 1 less on arc 1 (1 to 2) saves 2",
            "3\n1\n2\n1\n3\n",
        )
        self.refuse("line 2: there is an `s` line already", "s 13\n" + RIGHT)
        self.refuse("line 8: there is a `v` line of node 1 already", RIGHT.replace("v 2", "v 1 9\nv 2"), "lemon")
        starved = (TOP / "examples/starved/problem.min").read_text()
        self.refuse("the cut of 1 node does not show a shortage of 2", "i 2\nk 1\n", problem=starved)
        parallel = "p min 2 2\nn 1 3\nn 2 -3\na 1 2 0 2 4\na 1 2 0 9 7\n"
        self.refuse("line 1: 2 arcs lead from 1 to 2: each needs its line", "f 1 2 3\n", problem=parallel)
        with self.assertRaises(ValueError):
            answer_from("p min 2\n", "f 1 2 2\n", "flows")
        with self.assertRaises(ValueError):
            answer_from(DIAMOND, RIGHT, "cplex")

    def test_graph_texts(self) -> None:
        graph = (
            "@nodes\nlabel\tpotential\n3\t9\n2\t8\n1\t7\n0\t5\n@arcs\n\t\tlabel\tflow\n"
            "2\t3\t4\t4\n1\t3\t3\t0\n1\t2\t2\t2\n0\t2\t1\t2\n0\t1\t0\t2\n@attributes\nsource 0\n"
        )
        self.assertEqual(answer_from(DIAMOND, graph, "lemon"), RIGHT)
        self.assertEqual(answer_from(DIAMOND, graph.replace("potential", "supply"), "lemon"), RIGHT)
        self.refuse("the section @arcs has no column `flow`", graph.replace("flow", "cost"), "lemon")
        self.refuse(
            "the labels of the section with `flow` have to be 0 to 4", graph.replace("2\t3\t4\t4\n", ""), "lemon"
        )
        self.refuse(
            "line 9: the arc 4 leads from 3 to 2 here, and from 2 to 3 in the problem, where all are counted from 0",
            graph.replace("2\t3\t4\t4\n", "3\t2\t4\t4\n"),
            "lemon",
        )
        self.refuse(
            "line 10: there is a row of label 4 already",
            graph.replace("2\t3\t4\t4\n", "2\t3\t4\t3\n2\t3\t4\t4\n"),
            "lemon",
        )
        self.refuse("line 9: wrong number of fields", graph.replace("2\t3\t4\t4\n", "2\t3\t4\n"), "lemon")

    def test_raw_solutions(self) -> None:
        raw = (
            "c Problem\ns bas 4 5 f f 14\ni 1 s 4 3\ni 2 s 0 1\ni 3 b 0 0\ni 4 s -4 -1\n"
            "j 1 u 2 -1\nj 2 b 2 0\nj 3 l 0 1\nj 4 b 2 0\nj 5 b 4 0\ne o f\n"
        )
        self.assertEqual(answer_from(DIAMOND, raw, "glpk"), RIGHT)
        self.assertEqual(answer_from(DIAMOND, raw.replace(" s 4 3", " s 4 3.5"), "glpk"), RIGHT)
        self.refuse("line 2: GLPK says that it found no best plan", raw.replace("f f", "f n"), "glpk")
        self.refuse(
            "line 2: it is about 4 nodes and 6 arcs, and the problem has 4 and 5", raw.replace("4 5", "4 6"), "glpk"
        )
        self.refuse(
            "GLPK's `-w` has an `s` line and 5 `j` lines: the text is cut off", raw.replace("j 5 b 4 0\n", ""), "glpk"
        )
        self.refuse("the answer says that its flow is worth 15, and it is worth 14", raw.replace("14", "15"), "glpk")
        self.refuse("line 8: there is a `j` line of column 1 already", raw.replace("j 2", "j 1 u 7 -1\nj 2"), "glpk")
        self.refuse("line 3: there is an `s` line already", raw.replace("i 1", "s bas 4 5 f f 14\ni 1"), "glpk")
        self.refuse("line 2: much is no number", raw.replace("14", "much"), "glpk")
        self.refuse("line 2: four is no whole number", raw.replace("4 5", "four 5"), "glpk")
        for dual in ("inf", "nan", "1e999999999"):
            self.assertEqual(answer_from(DIAMOND, raw.replace(" s 4 3", f" s 4 {dual}"), "glpk"), RIGHT)
        self.refuse(
            "by its potentials 1 unit more on arc 4 (2 to 4) would be worth more",
            raw.replace(" -4 -1", " -4 -3"),
            "glpk",
        )

    def test_drawn(self) -> None:
        """Right flows are accepted without potentials and with them; a flow that is changed, or best by other costs, is
        refused unless it is best after all."""
        draws = random.Random(40)
        accepted = refused = 0
        for _ in range(150):
            problem = drawn(draws)
            text, solved = problem.text(), self.program.solve(problem.text())
            flows = parse_answer(solved).flows
            for answer, program in [
                ("".join(re.findall(r"^[sf] .*\n", solved, re.M)), "flows"),
                (solved, "lemon"),
                ("\n".join(map(str, flows)), "flows"),
            ]:
                self.accept(text, answer, program)
                accepted += 1
            flows[draws.randrange(len(flows))] += draws.choice([-1, 1])
            with self.assertRaises(NotAnAnswer):
                answer_from(text, "\n".join(map(str, flows)), "flows")
            refused += 1
            if problem.kind == "min":
                other = DimacsProblem(
                    "min", problem.nodes, [(*arc[:4], draws.randint(-9, 9)) for arc in problem.arcs], problem.supplies
                )
                flows = parse_answer(self.program.solve(other.text())).flows
                told = "\n".join(map(str, flows))
                if sum(arc[4] * flow for arc, flow in zip(problem.arcs, flows)) == parse_answer(solved).value:
                    self.accept(text, told, "flows")
                    accepted += 1
                else:
                    with self.assertRaises(NotAnAnswer) as raised:
                        answer_from(text, told, "flows")
                    self.assertIn("the flow is not best", str(raised.exception))
                    refused += 1
        print(f"answers of others, drawn: {accepted} accepted, {refused} refused")

    def test_chain(self) -> None:
        """Long chains and great costs take no long time."""
        nodes = 5000
        arcs = [(node, node + 1, 0, 5, 10**9) for node in range(1, nodes)]
        problem = DimacsProblem("min", nodes, arcs, {1: 5, nodes: -5})
        self.accept(problem.text(), "5\n" * len(arcs), "flows")

    def test_glpk(self) -> None:
        if shutil.which("glpsol") is None:
            self.skipTest("no glpsol here: GLPK itself is not asked")
        draws = random.Random(41)
        with tempfile.TemporaryDirectory() as folder:
            name, written = Path(folder, "problem"), Path(folder, "written")
            for case in range(60):
                problem = drawn(draws)
                name.write_text(problem.text())
                way = ["--interior"] if case % 10 == 9 else []
                run("glpsol", "--mincost" if problem.kind == "min" else "--maxflow", name, *way, "-w", written)
                raw = written.read_text()
                if not way:
                    self.accept(problem.text(), raw, "glpk")
                    spoilt = re.sub(
                        r"^j 1 (\w) (-?\d+)", lambda line: f"j 1 {line[1]} {int(line[2]) + 1}", raw, flags=re.M
                    )
                    with self.assertRaises(NotAnAnswer):
                        answer_from(problem.text(), spoilt, "glpk")

    def test_lemon(self) -> None:
        compiler = shutil.which("c++")
        with tempfile.TemporaryDirectory() as folder:
            file, program = TOP / "examples/others/lemon.cpp", Path(folder, "answer")
            if compiler is None or subprocess.run([compiler, "-o", program, file], capture_output=True).returncode != 0:
                self.skipTest("no C++ compiler with LEMON here: examples/others/lemon.cpp is not run")
            draws = random.Random(42)
            asked = 0
            while asked < 40:
                problem = drawn(draws)
                if problem.kind == "min":
                    asked += 1
                    name = Path(folder, "problem")
                    name.write_text(problem.text())
                    answer = run(program, name)
                    self.accept(problem.text(), answer, "lemon")
                    spoilt = re.sub(r"^v 1 (.*)$", lambda line: f"v 1 {int(line[1]) + 1000}", answer, flags=re.M)
                    if any(arc[0] == 1 or arc[1] == 1 for arc in problem.arcs):
                        self.refuse_spoilt(problem.text(), spoilt)

    def refuse_spoilt(self, problem: str, answer: str) -> None:
        """Potentials that are spoilt are refused, unless no arc that could carry more or less stands against them."""
        made: Optional[str] = None
        try:
            made = answer_from(problem, answer, "lemon")
        except NotAnAnswer:
            pass
        if made is not None:
            self.assertEqual(self.program.check(problem, made), "valid")

    def test_examples(self) -> None:
        self.assertEqual(doctest.testmod(others).failed, 0)


if __name__ == "__main__":
    unittest.main()
