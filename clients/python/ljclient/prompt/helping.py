"""The text of `help`: for all commands, for one, or for a refusal."""
from __future__ import annotations

import textwrap
from typing import List, Optional, Tuple

from .. import refusals  # noqa: F401 (it fills the table of refusals)
from ..errors import Refused
from .commands import Command, Own, forms_of, own_of, words_of
from .explaining import meant
from .groups import GROUPS

WIDTH = 100
KEYS = (
    "`help ADVANCE` explains one command, with an example.",
    "Tab completes commands, names and files. The arrow keys go through previous lines.",
    "Ctrl-C ends a long ADVANCE after a piece. Commands may be typed in small letters.",
)


def help_on(word: str, width: int = WIDTH) -> List[str]:
    """The lines of `help`, at most `width` columns wide; for all commands if the word is empty."""
    if not word:
        return overview(width)
    forms, own = forms_of(word.upper()), own_of(word)
    if forms or own:
        return [*on_command(forms, width), *on_own(own, width, bool(forms))]
    refusal = refusal_named(word)
    text = on_refusal(word) if refusal is None else f"ERR {refusal.number:02} {refusal.name}: {refusal.meaning}"
    return wrapped(text, "", "  ", width)


def overview(width: int) -> List[str]:
    """A line for each command, in groups."""
    lines: List[str] = []
    for title, rows in GROUPS:
        lines += ["", title] if lines else [title]
        lines += [line for usage, does in rows for line in wrapped(does, f"  {usage:<25} ", " " * 28, width)]
    return [*lines, "", *(line for text in KEYS for line in wrapped(text, "", "", width))]


def on_command(forms: List[Command], width: int) -> List[str]:
    """What a command does, its words, its reply and its refusals, for each of its forms."""
    lines: List[str] = []
    for form in forms:
        lines += [""] if lines else []
        for usage in filter(None, (form.usage, form.with_file)):
            lines += wrapped(usage, "", "    ", width)
        lines += wrapped(form.does, "  ", "  ", width)
        lines += table([(f"{word:<10}", meaning) for word, meaning in words_of(f"{form.usage} {form.with_file}")], width)
        lines += [f"  Reply: {form.reply}"]
        kinds = [Refused.by_number[number] for number in form.refusals]
        if kinds:
            text = "Refusals, after 02 and 03 of the line itself, in the order in which they are tested:"
            lines += wrapped(text, "  ", "  ", width)
        lines += table([(f"{kind.number:02} {kind.name:<15}", kind.meaning) for kind in kinds], width)
        lines += wrapped(form.order, "    ", "    ", width)
        lines += ["  Example:" if form.with_file else "  Example, with the session of `help LOAD`:"]
        lines += [part for line in form.example for part in wrapped(line, "    ", "        ", width)]
    return lines


def table(rows: List[Tuple[str, str]], width: int) -> List[str]:
    """Words, each followed by its meaning."""
    return [line for word, meaning in rows for line in wrapped(meaning, f"    {word} ", " " * (5 + len(word)), width)]


def on_own(forms: List[Own], width: int, follows: bool) -> List[str]:
    """The help for commands that only the prompt has; `follows` if commands of the protocol are above."""
    lines: List[str] = []
    for form in forms:
        lines += [""] if lines or follows else []
        lines += wrapped(form.usage, "", "    ", width) + wrapped(form.does, "  ", "  ", width)
        lines += ["  Example, with the session of `help LOAD`:"] if form.example else []
        lines += [part for line in form.example for part in wrapped(line, "    ", "        ", width)]
    return lines


def wrapped(text: str, first: str, indent: str, width: int) -> List[str]:
    """A text as lines of at most `width` columns. The first begins with `first`, the others with `indent`."""
    return textwrap.wrap(text, width, initial_indent=first, subsequent_indent=indent, break_long_words=False, break_on_hyphens=False)


def refusal_named(word: str) -> "Optional[type[Refused]]":
    """The refusal with this number or name."""
    for kind in Refused.by_number.values():
        if word.upper() == kind.name or (word.isdecimal() and int(word) == kind.number):
            return kind
    return None


def on_refusal(word: str) -> str:
    """The text for a word that is neither a command nor a refusal."""
    return f"There is no command and no refusal {word}: {meant(word)[0]}"
