"""Every public function, method and class of the package says what it does."""

import ast
import sys
import unittest
from pathlib import Path
from typing import Iterator, Tuple, Union

import mcf_plan

PACKAGE = Path(mcf_plan.__file__).parent
Documented = Union[ast.ClassDef, ast.FunctionDef, ast.AsyncFunctionDef]


def public(body: ast.AST, path: str) -> Iterator[Tuple[str, Documented]]:
    """The public definitions of a module or a class, with what each is called. What a definition holds within itself
    is its own."""
    for node in ast.iter_child_nodes(body):
        if isinstance(node, (ast.ClassDef, ast.FunctionDef, ast.AsyncFunctionDef)):
            name = f"{path}.{node.name}"
            if not node.name.startswith("_"):
                yield name, node
                if isinstance(node, ast.ClassDef):
                    yield from public(node, name)
        elif isinstance(node, (ast.If, ast.Try)):
            yield from public(node, path)


class Docstrings(unittest.TestCase):
    def test_modules_and_definitions(self) -> None:
        found = 0
        for file in sorted(PACKAGE.rglob("*.py")):
            module = ast.parse(file.read_text(encoding="utf-8"))
            name = ".".join(file.relative_to(PACKAGE.parent).with_suffix("").parts)
            with self.subTest(name):
                self.assertTrue(ast.get_docstring(module), "the module says nothing")
            for what, node in public(module, name):
                found += 1
                with self.subTest(what):
                    self.assertTrue(ast.get_docstring(node), f"{file.name}, line {node.lineno}")
        self.assertGreater(found, 200)


if __name__ == "__main__":
    sys.exit(unittest.main())
