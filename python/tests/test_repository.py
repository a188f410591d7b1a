"""What the repository says twice: its version, and which words the program takes."""

from __future__ import annotations

import subprocess
import unittest
from typing import List

from drawn import TOP, WithProgram

from wcspsolve.program import find


def lines_of(name: str) -> List[str]:
    return (TOP / name).read_text(encoding="utf-8").splitlines()


class Version(unittest.TestCase):
    def test_one_version(self) -> None:
        version = lines_of("VERSION")[0]
        self.assertIn(f'version = "{version}"', lines_of("python/pyproject.toml"))
        self.assertEqual(f"## {version}", next(line for line in lines_of("CHANGELOG.md") if line.startswith("## ")))


class Help(WithProgram):
    def setUp(self) -> None:
        text = lines_of("docs/HELP.txt")
        self.parts = {line[2:]: text[place + 1] for place, line in enumerate(text) if line.startswith("@ ")}
        self.listed = [line.split()[0] for line in text[: text.index("@ solve")] if line.startswith("    ")]

    def test_usage_lines_are_the_programs(self) -> None:
        said = subprocess.run([*find(), "no-command"], capture_output=True, text=True, check=False)
        self.assertEqual(said.returncode, 3)
        told = [line for name, line in self.parts.items() if name != "prove"]
        self.assertEqual(["error usage", *told], said.stdout.splitlines())

    def test_each_part_is_of_a_command_that_is_listed(self) -> None:
        for name, usage in self.parts.items():
            self.assertEqual(usage.split()[:2], ["wcspsolve", name])
            self.assertTrue(name in self.listed or name == "prove", name)
