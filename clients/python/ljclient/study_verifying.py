"""`python3 -m ljclient verify FOLDER` checks that each file of a study is as it was, and plays its records again, in parts."""
from __future__ import annotations

import argparse
import os
import threading
from concurrent.futures import ThreadPoolExecutor
from dataclasses import dataclass, field
from typing import Callable, Dict, List, Optional, Tuple

from . import checkpoint as checkpoints
from .errors import Damaged
from .locate import find_program
from .record_joints import Joints
from .record_parts import Checkpoint, Division, Part, PartPlayer, divided, play_part
from .record_playing import Opener, Tell, Trouble
from .study_citation import citation_of
from .study_manifest import CITATION, FINISHED, MANIFEST, OPEN, Manifest, NoStudy, check_plain, files_in, manifest_in, sum_of_file
from .verify import CUT, DIFFERS, SAME, complain, counted, is_whole, opener_of, say, verdict

# The most parts of a record per job, so that no job waits long for the last part.
PARTS_OF_A_JOB = 2
# The result of playing a part: the count of its trajectories, and the report on checkpoints that differ.
Played = Tuple[Joints, List[str]]


@dataclass
class Verified:
    """The findings of a verification.

    folder      the folder of the study
    misfits     the files that do not fit, in order
    unfinished  records that have no end
    """

    folder: str
    misfits: List[str] = field(default_factory=list)
    unfinished: List[str] = field(default_factory=list)
    _lock: threading.Lock = field(default_factory=threading.Lock)

    def place(self, path: str) -> str:
        return os.path.join(self.folder, *path.split("/"))

    def misfit(self, path: str, why: str) -> None:
        """Notes that a file does not fit, and prints why."""
        with self._lock:
            if path not in self.misfits:
                self.misfits.append(path)
            complain(f"{self.place(path)} {why}")


def verify_study(options: argparse.Namespace) -> int:
    """Verifies the study of a folder, prints the results, and returns the exit status."""
    folder = os.fspath(options.file)
    try:
        manifest, summed = manifest_in(folder)
        if options.sha256 not in (None, summed):
            raise NoStudy(f"{folder} must have the SHA-256 {options.sha256}, got {summed}: it is another study")
        found = Verified(folder)
        fitting = _look_at_files(manifest, found)
        _look_at_citation(manifest, summed, found)
    except NoStudy as error:
        raise Trouble(str(error)) from error
    records = [path for path in manifest.of_kind("record") if path in fitting]
    tell: Tell = (lambda text: None) if options.quiet else say
    tell(_heading(manifest))
    if not options.server and options.program is None and records:
        options.program = find_program()
    _play_records(options, manifest, records, found, tell)
    for path in fitting:
        if manifest.files[path]["kind"] in ("figure", "file"):
            tell(f"{found.place(path)}: as it was")
    return _told_at_the_end(options, manifest, summed, found)


def _heading(manifest: Manifest) -> str:
    client, programs = manifest.versions.get("ljclient"), manifest.versions.get("program", [])
    return f"the study says: `{manifest.title}`, by ljclient {client} over {', '.join(map(str, programs)) or 'no program'}"


def _look_at_files(manifest: Manifest, found: Verified) -> List[str]:
    """The files that exist as listed, in order. Files that do not fit are reported."""
    fitting = []
    there = set(files_in(found.folder))
    for path, said in sorted(manifest.files.items()):
        check_plain(found.folder, path)
        if path not in there and said["sha256"] is not None:
            found.misfit(path, f"is missing, and {MANIFEST} lists it")
        elif path in there and said["sha256"] is not None and sum_of_file(found.place(path)) != (said["sha256"], said["bytes"]):
            found.misfit(path, f"is not as it was: it has another SHA-256 or size than {MANIFEST} says")
        elif path in there:
            fitting.append(path)
    for path in sorted(there - set(manifest.files)):
        if manifest.state == OPEN:
            complain(f"{found.place(path)} is not listed yet, as where the process was killed")
        else:
            found.misfit(path, f"is one too many: {MANIFEST} does not list it")
    return fitting


def _look_at_citation(manifest: Manifest, summed: str, found: Verified) -> None:
    """Reports a citation that does not fit the manifest. A study that is not finished has none."""
    place = found.place(CITATION)
    check_plain(found.folder, CITATION)
    wanted = citation_of(manifest, summed) if manifest.state == FINISHED else None
    told = None
    if os.path.exists(place):
        with open(place, "rb") as file:
            told = file.read(len(wanted or b"") + 1)
    if wanted is None and told is not None:
        found.misfit(CITATION, "is there, and the study is not finished")
    elif told != wanted and told is None:
        found.misfit(CITATION, "is missing")
    elif told != wanted:
        found.misfit(CITATION, f"does not fit {MANIFEST}, whose SHA-256 is {summed}: one of them was changed")


def _play_records(options: argparse.Namespace, manifest: Manifest, records: List[str], found: Verified, tell: Tell) -> None:
    """Plays the records, several parts at the same time, and reports on each record once all of it was played."""
    jobs = 1 if options.server else options.jobs or os.cpu_count() or 1
    stop, opener = threading.Event(), opener_of(options)
    most = 1 if jobs == 1 else PARTS_OF_A_JOB * jobs
    with ThreadPoolExecutor(jobs) as pool:
        try:
            started = []
            for path in records:
                division = _divided(path, manifest, found, most)
                if division is not None:
                    played = [_begun(pool, division, part, found, path, opener, stop, bool(options.server)) for part in division.parts]
                    started.append((path, division, played))
            for path, division, several in started:
                _told_of_record(path, division, [result() for result in several], found, tell)
        except BaseException:
            stop.set()
            raise


def _divided(path: str, manifest: Manifest, found: Verified, most: int) -> Optional[Division]:
    """A record in parts; None, with a message, if it cannot be played."""
    place = found.place(path)
    try:
        division = divided(place, _checkpoints_of(path, manifest, found), most)
    except Damaged as error:
        found.misfit(path, f"is damaged, line {error.line}: {error.args[2]}")
        return None
    for stray in division.strays:
        found.misfit(stray, f"stands nowhere in {path}: the record has no command up to which its SHA-256 is so")
    if not is_whole(division.plan.file):
        found.unfinished.append(path)
    if not max(division.plan.played):
        complain(f"{place}: the record has no command that was replied to")
        return None
    return division


def _checkpoints_of(path: str, manifest: Manifest, found: Verified) -> List[Checkpoint]:
    """The checkpoints of a record that fit and can be read."""
    read = []
    for each in manifest.of_kind("checkpoint"):
        said = manifest.files[each]
        if said["record"] == path and each not in found.misfits:
            try:
                read.append(Checkpoint(each, said["after"], checkpoints.read(found.place(each))))
            except Damaged as error:
                found.misfit(each, f"is damaged, line {error.line}: {error.args[2]}")
    return read


def _begun(
    pool: ThreadPoolExecutor,
    division: Division,
    part: Part,
    found: Verified,
    path: str,
    opener: Opener,
    stop: threading.Event,
    is_server: bool,
) -> Callable[[], Tuple[PartPlayer, Played]]:
    """Starts to play a part, and returns a function that waits for it."""

    def tell(text: str) -> None:
        if stop.is_set():
            raise Trouble("interrupted")

    player = PartPlayer(found.place(path), tell, lambda text: None, complain)

    def play() -> Tuple[PartPlayer, Played]:
        tell("")
        return player, play_part(division.plan, part, opener, is_server, player)

    return pool.submit(play).result


def _told_of_record(path: str, division: Division, played: List[Tuple[PartPlayer, Played]], found: Verified, tell: Tell) -> None:
    """Prints the results of all parts of a record."""
    whole = PartPlayer(found.place(path), tell, tell, complain)
    joints = Joints(division.plan.file.session, 0)
    for player, (ends, told) in played:
        whole.count += player.count
        whole.differing += player.differing
        joints.trajectories += ends.trajectories - 1
        joints.uncompared += ends.uncompared
        for line in told:
            checkpoint, _, why = line.partition(": ")
            found.misfit(checkpoint, f"is not what the session is there: {why}")
    tell(f"{verdict(division.plan, whole, joints)}{_told_of_parts(division)}")
    if whole.differing:
        found.misfit(path, f"does not fit: {counted(len(whole.differing), 'reply differs', 'replies differ')}")


def _told_of_parts(division: Division) -> str:
    checks = sum(len(stop.checkpoints) for part in division.parts for stop in part.stops)
    parts = counted(len(division.parts), "part", "parts")
    return f"; played in {parts}, with {counted(checks, 'checkpoint', 'checkpoints')}" if checks else ""


def _told_at_the_end(options: argparse.Namespace, manifest: Manifest, summed: str, found: Verified) -> int:
    """Prints the verdict on a study, and returns the exit status."""
    counts: Dict[str, int] = {kind: len(manifest.of_kind(kind)) for kind in ("record", "checkpoint", "figure", "file")}
    parts = [", ".join(counted(number, kind, f"{kind}s") for kind, number in counts.items())]
    if found.misfits:
        parts.append(f"{counted(len(found.misfits), 'file does', 'files do')} not fit: {', '.join(sorted(found.misfits))}")
    else:
        parts.append("all fit")
    if manifest.state == OPEN:
        parts.append("it is unfinished: it is still being made, or its process was killed")
    elif manifest.state != FINISHED:
        parts.append(f"it is unfinished: {manifest.why}")
    if found.unfinished:
        parts.append(f"no end: {', '.join(found.unfinished)}")
    say(f"{found.folder}: {'; '.join(parts)}; SHA-256 {summed}")
    if found.misfits:
        return DIFFERS
    return SAME if (manifest.state == FINISHED and not found.unfinished) or options.partial else CUT
