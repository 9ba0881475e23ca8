"""The command line of the scripts of this folder."""

import argparse
from typing import Any, NoReturn


class Parser(argparse.ArgumentParser):
    """The command line of a script, whose help is its docstring. Wrong words end the script with one line and status 2."""

    def __init__(self, about: str, **words: Any) -> None:
        super().__init__(description=about.strip(), formatter_class=argparse.RawDescriptionHelpFormatter, allow_abbrev=False, **words)

    def error(self, message: str) -> NoReturn:
        self.exit(2, f"{self.prog}: {message}\n")
