"""Solves the diamond through the C library: as a text, in arrays, and in a session whose edit is taken back.

The first argument names the shared library. The package mcf_plan has the structures of mcf.h (`mcf_plan.calls`) and the
calls as Python wants them (`mcf_plan.library`).
"""

import sys
from pathlib import Path

# The repository's own package, where none is installed.
sys.path.append(str(Path(__file__).resolve().parents[2] / "python" / "src"))

from mcf_plan import Refused, solve_arrays  # noqa: E402
from mcf_plan.dimacs import parse_answer  # noqa: E402
from mcf_plan.library import Library  # noqa: E402

TEXT = """p min 4 5
n 1 4
n 4 -4
a 1 2 0 4 2
a 1 3 0 2 2
a 2 3 0 2 1
a 2 4 0 3 3
a 3 4 0 5 1
"""


def tell(answer: str) -> None:
    """Prints an answer as the library gives it."""
    found = parse_answer(answer)
    if found.is_flow:
        print("worth", found.value, "flow", found.flows, "potentials", found.potentials)
    else:
        print("infeasible by", found.shortage, "cut", found.cut)


if __name__ == "__main__":
    library = Library(sys.argv[1])
    tell(library.solve(TEXT))
    tell(library.solve(TEXT.replace("a 1 2 0 4 2", "a 1 2 0 1 2")))
    try:
        library.solve(TEXT[:20])
    except Refused as refused:
        print(f"refused: line {refused.fault.line}, fault {refused.fault.number}")
    tails, heads, capacities, costs = [0, 0, 1, 1, 2], [1, 2, 2, 3, 3], [4, 2, 2, 3, 5], [2, 2, 1, 3, 1]
    plan = solve_arrays(tails, heads, capacities, costs, [4, 0, 0, -4], solver=library, check=False)
    plan.verify()
    print("cost", plan.cost, "flow", plan.flows)
    with library.session(TEXT) as session:
        for line in ("close 2", "show", "undo", "undo"):
            print(f"{line}:", *session.ask(line))
