"""`python3 -m ljclient` is a prompt, `python3 -m ljclient view` a live view, `python3 -m ljclient verify` plays a record,
`python3 -m ljclient diff` compares two; `python3 -m ljclient check` marks one of a lesson.

Installed, it is the command `ljclient` too.
"""
from __future__ import annotations

import sys
from typing import List, Optional

from .warning import told_in_a_line


def main(words: Optional[List[str]] = None) -> int:
    """Runs what the words say, else those of the command line, and returns the exit status."""
    words = sys.argv[1:] if words is None else words
    with told_in_a_line():
        if words[:1] == ["view"]:
            from . import view

            return view.main(words[1:])
        if words[:1] == ["verify"]:
            from . import verify

            return verify.main(words[1:])
        if words[:1] == ["diff"]:
            from . import record_diff

            return record_diff.main(words[1:])
        if words[:1] == ["check"]:
            from . import marking

            return marking.main(words[1:])
        from . import prompt

        return prompt.main(words)


if __name__ == "__main__":
    sys.exit(main())
