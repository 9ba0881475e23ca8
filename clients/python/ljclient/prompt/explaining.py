"""Refusals in words: what each means, and what exists instead."""
from __future__ import annotations

from typing import List

from ..errors import ClientError, Refused
from ..refusals import BranchExists, Command, Edge, Exists, NoAtom, NoBranch, NoSession, Sigma, StepFactor, StepRange, Syntax, Weight
from ..user import User
from .commands import first_words
from .loading import words_of
from .shapes import usage_for, usages, wrong_words

OF_A_WORD = (Syntax, Edge, Sigma, StepFactor, StepRange, Weight)
CLOSE = 0.65
MAX_NAMES = 12
MAX_TEXT = 60


def explained(refusal: Refused, user: User, path: str = "", body: bytes = b"") -> List[str]:
    """The lines that explain a refusal; `path` and `body` belong to a loaded file."""
    lines = [refusal.meaning or "a refusal that this client does not know"]
    words = words_of(refusal.command)
    if isinstance(refusal, OF_A_WORD) and words:
        wrong = [str(each) for each in wrong_words(words, usage_for(words))[:1]]
        lines = wrong if wrong and isinstance(refusal, Syntax) else lines + wrong
    if isinstance(refusal, Syntax) and words:
        lines += [f"use `{usage}`" for usage in usages(words[0])]
    if isinstance(refusal, Command) and words:
        lines += meant(words[0])
    if refusal.line is not None:
        lines += [faulty_line(refusal.line, path, body)]
    try:
        return lines + there_is(refusal, user, words)
    except ClientError:
        return lines


def lost(names: List[str]) -> List[str]:
    """The lines about sessions that the server no longer has."""
    why = f"the server was started again, or another connection has dropped {'it' if len(names) == 1 else 'them'}"
    return [listed("no longer at the server", names), why] if names else []


def meant(word: str) -> List[str]:
    """The line with the commands spelled like this word."""
    import difflib  # It takes long to import, and is seldom needed.

    known = {name.upper(): name for name in first_words()}
    near = [known[found] for found in difflib.get_close_matches(word.upper(), known, 2, CLOSE)]
    return [f"is {' or '.join(near)} meant? `help` lists the commands" if near else "`help` lists the commands"]


def faulty_line(number: int, path: str, body: bytes) -> str:
    """The wrong line of an XYZ text."""
    texts = body.split(b"\n")
    where = f"{path}, line {number}" if path else f"line {number} of the text"
    if number > len(texts) or (number == len(texts) and not texts[-1]):
        return f"{where}: the text has ended before"
    return f"{where}: {shortened(texts[number - 1].decode('ascii', 'backslashreplace').strip())}"


def there_is(refusal: Refused, user: User, words: List[str]) -> List[str]:
    """The lines about what the server has instead."""
    if user.closed:
        return []
    if isinstance(refusal, NoSession):
        return [listed("sessions", [row.name for row in user.sessions()])]
    if isinstance(refusal, Exists):
        return [f"use `DROP {words[1]}`, or another name"]
    if isinstance(refusal, (NoBranch, BranchExists)):
        return [listed(f"saved in {words[1]}", [saved.name for saved in user.session(words[1]).saved()])]
    if isinstance(refusal, NoAtom):
        return [f"{words[1]} has the atoms 0 to {user._row(words[1]).atoms - 1}"]
    return []


def listed(what: str, found: List[str]) -> str:
    """A line of names; only the first ones if there are many."""
    more = f" and {len(found) - MAX_NAMES} more" if len(found) > MAX_NAMES else ""
    return f"{what}: {', '.join(found[:MAX_NAMES]) or 'none'}{more}"


def shortened(text: str) -> str:
    """A text, cut if it is too long for a line."""
    return text if len(text) <= MAX_TEXT else f"{text[:MAX_TEXT]}.."
