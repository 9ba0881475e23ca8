"""The command line of a tool."""
import argparse
import sys
from typing import NoReturn, Sequence


class Parser(argparse.ArgumentParser):
    """The parser of a tool's words. `about` is the help text."""

    def __init__(self, name: str, about: str):
        super().__init__(name, usage=about.strip(), add_help=False, allow_abbrev=False)
        self.add_argument("-h", "--help", action="store_true")

    def options(self, words: Sequence[str]) -> argparse.Namespace:
        """The options in the words. If they ask for help, it is printed, and the program ends."""
        options = self.parse_args(words)
        if options.help:
            print(self.usage)
            sys.exit(0)
        return options

    def error(self, message: str) -> NoReturn:
        print(f"{self.prog}: {message}", file=sys.stderr)
        sys.exit(2)
