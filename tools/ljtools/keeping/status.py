"""The status of a front, as it is shown."""
import json
import pathlib
import time
from typing import Any, Dict, Iterator, List, Optional

from ..user_files import Fault
from .accounts import DENIED
from .place import STATUS, answer_of, database_at, is_address

Known = Dict[str, Any]


def statuses_of(place: str) -> List[Known]:
    """The status of each front of a place. Raises Fault if there is none."""
    try:
        texts = database_at(place).statuses() if is_address(place) else [pathlib.Path(place, STATUS).read_text()]
        statuses = [json.loads(text) for text in texts]
    except OSError as error:
        raise Fault(f"cannot read {place}: {error.strerror}") from error
    except ValueError as error:
        raise Fault(f"cannot read {place}: it has no status") from error
    if not all("servers" in known for known in statuses):
        raise Fault(f"cannot read {place}: its status is of an older keep, which may still run there; start this keep instead")
    return statuses


def tell_status(place: str) -> int:
    """Prints the status of a place. Returns 0 if it has fronts, all their servers answer and no user is stopped, else 1."""
    statuses = statuses_of(place)
    is_fine = bool(statuses)
    if not statuses:
        print("no front runs")
    for known in statuses:
        try:
            answer = answer_of(known["at"], known["has_header"], known.get("has_tls", False))
        except OSError:
            answer = b""
        is_fine = is_fine and answer == DENIED and not any(each["state"] == "stopped" for each in known["users"].values())
        print(*lines_of(known, answer), sep="\n")
    return int(not is_fine)


def lines_of(known: Known, answer: Optional[bytes]) -> Iterator[str]:
    """The lines that show a front's status."""
    since = time.strftime("%Y-%m-%d %H:%M:%S", time.localtime(known["since"]))
    runs = f"runs since {since}, process {known['process']}, at {known['at']}"
    yield runs if answer is not None else f"does not run: {known['end'] or 'it was killed'}"
    servers = [each for each in known["servers"] if each["process"]] if answer is not None else []
    answers = "" if answer == DENIED or not servers else ", does not answer"
    processes = f"process {', '.join(str(each['process']) for each in servers)}" if servers else "is not there"
    yield f"server: {processes}, begun {known['begun']} times{answers}"
    if known["last_end"]:
        yield f"last end of the server: {known['last_end']}"
    for name, each in known["users"].items():
        yield f"{name:<16} {each['state']}: {each['why']}" if each["why"] else f"{name:<16} {each['state']}{figures_of(each)}"


def figures_of(user: Known) -> str:
    """The figures of a user who is not stopped."""
    left = f", about {user['left']:.0f} s left" if user.get("left") else ""
    used_up = ", no steps left today" if user.get("today", {}).get("is_used_up") else ""
    return f", {user['records']} records{left}{used_up}"
