"""The core imports nothing that can touch anything."""
import ast
import unittest
from pathlib import Path

CORE = Path(__file__).resolve().parent.parent / "gate_host/core"
# What the core may import: what gives values of values.
HARMLESS = {"json", "collections", "re", "dataclasses", "enum", "itertools", "typing"}


class ImportTests(unittest.TestCase):
    def test_the_core_imports_nothing_that_can_touch_anything(self):
        files = sorted(CORE.glob("*.py"))
        self.assertGreater(len(files), 8)
        for path in files:
            for node in ast.walk(ast.parse(path.read_text(encoding="utf-8"))):
                if isinstance(node, ast.Import):
                    for name in node.names:
                        self.assertIn(name.name, HARMLESS, path.name)
                elif isinstance(node, ast.ImportFrom) and node.level == 0:
                    self.assertIn(node.module, HARMLESS, path.name)
                elif isinstance(node, ast.ImportFrom):
                    # From the core itself, and from nothing above it.
                    self.assertEqual(node.level, 1, path.name)
                elif isinstance(node, ast.Call) and isinstance(node.func, ast.Name):
                    self.assertNotIn(node.func.id, ("open", "print", "input", "exec", "eval", "__import__"), path.name)


if __name__ == "__main__":
    unittest.main()
