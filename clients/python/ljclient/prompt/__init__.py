"""A prompt for the commands of the protocol, which `python3 -m ljclient` starts."""
from .starting import main

__all__ = ["main"]
