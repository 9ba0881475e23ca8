"""A live view for teaching: a page in the browser that shows moving atoms, forward and backward in time.

`python3 -m ljclient view [HOST:PORT NAME] [FILE.xyz ..]` serves it on 127.0.0.1 only and opens it; `python3 -m ljclient.view` is
the same. The program ends when the page is closed. With `--listen` it serves a class, until the program is ended.
"""
from .command import main

__all__ = ["main"]
