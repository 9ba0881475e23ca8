"""The command line of a measurement."""
from __future__ import annotations

import argparse
import os
import shutil
from typing import Any, List, NoReturn, Sequence, Tuple


def path_of(program: str) -> str:
    """The absolute path of a program, which may be on the PATH."""
    found = shutil.which(program)
    if found is None:
        raise argparse.ArgumentTypeError(f"must be a program, got {program}")
    return os.path.abspath(found)


class Parser(argparse.ArgumentParser):
    """A parser whose help is the docstring of a script: what it measures, its arguments after `usage: `, and what they mean."""

    def __init__(self, about: str = "", **words: Any) -> None:
        measured, _, rest = about.strip().partition("usage: ")
        usage, _, more = rest.partition("\n\n")
        words.setdefault("usage", usage.replace("%", "%%") or None)
        words.setdefault("formatter_class", argparse.RawDescriptionHelpFormatter)
        super().__init__(description=measured.strip(), epilog=more, allow_abbrev=False, **words)

    def add_program(self, name: str = "program") -> None:
        """An argument: the path of a built program."""
        self.add_argument(name, type=path_of, help="the built program")

    def add_beside(self) -> None:
        """An option: another program, measured in the same rounds."""
        self.add_argument("--beside", metavar="OLD", type=path_of, help="another built program, measured in the same rounds")

    def error(self, message: str) -> NoReturn:
        self.exit(2, f"{self.prog}: {message}\n")

    def parse_program(self, words: Sequence[str]) -> Tuple[List[str], argparse.Namespace]:
        """The words of a program, given before `--`, and the parsed options after it."""
        parts = list(words)
        if "--" not in parts:
            if not {"-h", "--help"}.isdisjoint(parts):
                self.print_help()
                self.exit()
            self.error("the words of the program must be followed by `--`")
        at = parts.index("--")
        options = self.parse_args(parts[at + 1 :])
        if at == 0:
            self.error("a program must stand before the `--`")
        if shutil.which(parts[0]) is None:
            self.error(f"a program must stand before the `--`, got {parts[0]}")
        return parts[:at], options
