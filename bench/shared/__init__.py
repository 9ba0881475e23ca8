"""The shared modules of tests/, for the scripts of this folder."""
import os

__path__ = [os.path.normpath(os.path.join(os.path.dirname(os.path.abspath(__file__)), "..", "..", "tests", "shared"))]
