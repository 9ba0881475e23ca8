"""The programs that the tools start: their environment, and how they end with the tool."""
import os
import pathlib
import sys
from typing import Dict, List, Sequence

TOKEN = "LJSERVE_TOKEN"
LAUNCHER = pathlib.Path(__file__).resolve().with_name("launcher.py")


def environment() -> Dict[str, str]:
    """The environment without a user's token, which no server needs."""
    return {name: value for name, value in os.environ.items() if name != TOKEN}


def ending_with_parent(words: Sequence[str]) -> List[str]:
    """A command line for a program that the system kills when this process ends."""
    return [sys.executable, "-IS", str(LAUNCHER), str(os.getpid()), *words]
