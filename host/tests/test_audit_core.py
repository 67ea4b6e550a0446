"""The audit has nothing in common with what the host decides: neither it nor what it imports imports the core."""
import ast
import unittest
from pathlib import Path

PACKAGE = Path(__file__).resolve().parent.parent / "gate_host"
# What of the host the audit may stand on, and what of the standard library the parts of it may import that decide.
BELOW = {"faults", "git", "places", "required"}
HARMLESS = {"dataclasses", "json", "re", "time", "typing"}
DECIDING = ("entries", "grammar", "story", "steps", "shown")


def imported_by(path):
    """The modules of the package that a file imports, as paths without an ending, and the names of all others."""
    own, others = set(), set()
    for node in ast.walk(ast.parse(path.read_text(encoding="utf-8"))):
        if isinstance(node, ast.Import):
            others.update(alias.name for alias in node.names)
        elif isinstance(node, ast.ImportFrom) and node.level == 0:
            others.add(node.module)
        elif isinstance(node, ast.ImportFrom):
            folder = path.parents[node.level - 1]
            names = [node.module] if node.module else [alias.name for alias in node.names]
            own.update(folder.joinpath(*name.split(".")) for name in names)
    return own, others


def file_of(module):
    return module / "__init__.py" if module.is_dir() else module.with_suffix(".py")


class ImportTests(unittest.TestCase):
    def test_the_audit_imports_nothing_of_the_core(self):
        waiting = sorted((PACKAGE / "audit").glob("*.py"))
        self.assertGreater(len(waiting), 8)
        seen = set()
        while waiting:
            path = waiting.pop()
            if path in seen:
                continue
            seen.add(path)
            own, others = imported_by(path)
            self.assertFalse([name for name in others if name.startswith("gate_host")], path)
            waiting += [file_of(module) for module in own]
        found = {path.relative_to(PACKAGE).with_suffix("").as_posix() for path in seen}
        self.assertEqual({name for name in found if not name.startswith("audit/")}, BELOW)

    def test_what_decides_touches_nothing(self):
        for name in DECIDING:
            path = PACKAGE / "audit" / f"{name}.py"
            own, others = imported_by(path)
            self.assertLessEqual(others, HARMLESS, name)
            self.assertLessEqual({module.name for module in own}, set(DECIDING), name)


if __name__ == "__main__":
    unittest.main()
