"""Studies that somebody has changed: each change is found out, and what does not fit is named."""
import hashlib
import json
import os
import pathlib
import shutil
from typing import Any, Callable, Dict

import pytest

from ljclient import checkpoint, run, study
from record_texts import with_checks, without_checks
from study_folders import begun, made, renewed, said, say, sha, verified
from support import PROGRAM, dimer

CHANGED = "is not as it was: it has another SHA-256 or size than study.json says"


@pytest.fixture(scope="module")
def original(tmp_path_factory: pytest.TempPathFactory) -> pathlib.Path:
    folder = tmp_path_factory.mktemp("study") / "two"
    made(folder)
    return folder


@pytest.fixture
def folder(original: pathlib.Path, tmp_path: pathlib.Path) -> pathlib.Path:
    return pathlib.Path(shutil.copytree(original, tmp_path / "two"))


def is_told(folder: pathlib.Path, path: str, why: str, **words: Any) -> None:
    """Holds that verify ends with status 1, and names this file alone."""
    status, told, faults = verified(folder, **words)
    assert status == 1, (told, faults)
    assert f"ljclient: {folder / path} {why}" in faults
    assert f"; 1 file does not fit: {path}; " in told[-1]
    assert told[-1].endswith(f"; SHA-256 {sha(folder / 'study.json')}")


FILES = [
    *("records/a.lj", "records/b.lj", "checkpoints/a.1.saved", "checkpoints/a.2.saved", "checkpoints/a.3.saved"),
    *("checkpoints/a.4.saved", "figures/column.csv"),
]


@pytest.mark.parametrize("where", [0.0, 0.5, 1.0])
@pytest.mark.parametrize("path", FILES)
def test_a_file_with_another_byte(folder: pathlib.Path, path: str, where: float) -> None:
    data = bytearray((folder / path).read_bytes())
    data[int(where * (len(data) - 1))] ^= 1
    (folder / path).write_bytes(data)
    is_told(folder, path, CHANGED)


@pytest.mark.parametrize("path", FILES)
def test_a_file_that_is_longer_or_gone(folder: pathlib.Path, path: str) -> None:
    with open(folder / path, "ab") as file:
        file.write(b"\n")
    is_told(folder, path, CHANGED)
    (folder / path).unlink()
    is_told(folder, path, "is missing, and study.json lists it")


@pytest.mark.parametrize("path", ["records/c.lj", "figures/deep/x.csv", "note", "study.json.part", ".hidden"])
def test_a_file_too_many(folder: pathlib.Path, path: str) -> None:
    (folder / path).parent.mkdir(exist_ok=True)
    (folder / path).write_text("more\n")
    is_told(folder, path, "is one too many: study.json does not list it")


def test_a_record_in_place_of_another_one(folder: pathlib.Path) -> None:
    """It is a true record, and not that of the study."""
    with run(PROGRAM) as user:
        dimer(user, "b", record=folder / "records" / "b.lj").advance(3)
    is_told(folder, "records/b.lj", CHANGED)


def test_two_records_that_are_exchanged(folder: pathlib.Path) -> None:
    one, other = (folder / "records" / name for name in ("a.lj", "b.lj"))
    texts = one.read_bytes(), other.read_bytes()
    one.write_bytes(texts[1])
    other.write_bytes(texts[0])
    status, told, _ = verified(folder)
    assert (status, "; 2 files do not fit: records/a.lj, records/b.lj; " in told[-1]) == (1, True)


def test_a_manifest_whose_sum_was_not_renewed(folder: pathlib.Path) -> None:
    told = said(folder)
    told["results"]["last"]["potential_energy"] = -1.0
    summed = say(folder, told)
    is_told(folder, "CITATION.cff", f"does not fit study.json, whose SHA-256 is {summed}: one of them was changed")


def test_what_was_renewed_has_another_sum(folder: pathlib.Path) -> None:
    """All fits, and only the sum that the paper prints tells."""
    before = sha(folder / "study.json")
    (folder / "figures" / "column.csv").write_text("x,y\n0,0.1\n1,0.3\n")
    renewed(folder)
    status, told, _ = verified(folder)
    assert (status, told[-1].endswith(f"all fit; SHA-256 {sha(folder / 'study.json')}")) == (0, True)
    status, _, (fault,) = verified(folder, "--sha256", before)
    assert status == 2 and ": it is another study" in fault


@pytest.mark.parametrize("change", [lambda text: text.replace("A. Author", "B. Author"), lambda text: text + "\n", lambda text: ""])
def test_a_citation_that_was_changed(folder: pathlib.Path, change: Callable[[str], str]) -> None:
    path = folder / "CITATION.cff"
    path.write_text(change(path.read_text()))
    is_told(folder, "CITATION.cff", f"does not fit study.json, whose SHA-256 is {sha(folder / 'study.json')}: one of them was changed")
    path.unlink()
    is_told(folder, "CITATION.cff", "is missing")


def test_a_reply_that_was_edited_with_all_sums(folder: pathlib.Path) -> None:
    path = folder / "records" / "b.lj"
    text = "\n".join([*path.read_text().splitlines()[:1], *(line[9:] for line in path.read_text().splitlines()[1:]), ""])
    path.write_text(with_checks(text.replace("< OK ADVANCE b 2", "< OK ADVANCE b 3")))
    renewed(folder)
    is_told(folder, "records/b.lj", "does not fit: 1 reply differs")


def state_of(folder: pathlib.Path, number: int) -> Any:
    return checkpoint.read(folder / "checkpoints" / f"a.{number}.saved")


def put(folder: pathlib.Path, number: int, state: Any) -> None:
    """Puts a checkpoint in place of one, with checks and sums that are right."""
    checkpoint.write(state, folder / "checkpoints" / f"a.{number}.saved")
    renewed(folder)


def with_place(state: Any, atom: int, by: int) -> Any:
    """A state whose atom is elsewhere along x, and came from elsewhere."""

    def moved(places: Any) -> Any:
        return tuple((x + by, y, z) if number == atom else (x, y, z) for number, (x, y, z) in enumerate(places))

    return type(state)(**{**vars(state), "places": moved(state.places), "before": moved(state.before)})


@pytest.mark.parametrize("jobs", [1, 3])
@pytest.mark.parametrize("number", [1, 2, 3, 4])
def test_a_checkpoint_that_was_edited_with_all_sums(folder: pathlib.Path, number: int, jobs: int) -> None:
    """The part that ends there finds it, also where the next one begins with it, whose replies are others then."""
    put(folder, number, with_place(state_of(folder, number), 1, 1))
    status, told, faults = verified(folder, jobs=jobs)
    step = 3 * number
    wanted = f"ljclient: {folder}/checkpoints/a.{number}.saved is not what the session is there: atom 1 at step {step} is Ar at "
    assert status == 1 and any(fault.startswith(wanted) for fault in faults), faults
    assert f"checkpoints/a.{number}.saved" in told[-1]


def test_checkpoints_that_were_edited_alike(folder: pathlib.Path) -> None:
    """The second and all behind it are of another trajectory, which goes on truly from there: the first part does not lead to it."""
    with run(PROGRAM) as user:
        other = user.load_saved(folder / "checkpoints" / "a.1.saved")
        other.tug(0, (1, 0, 0))
        for number in (2, 3, 4):
            other.advance(3)
            state = user._state_of("a")
            put(folder, number, state)
    status, told, faults = verified(folder, jobs=3)
    assert status == 1
    assert any(f"{folder}/checkpoints/a.2.saved is not what the session is there: atom 0 at step 6 is " in fault for fault in faults)


@pytest.mark.parametrize(
    ("change", "why"),
    [
        ({"step": 7}, "step 7 and direction 1, and step 6 and direction 1 by "),
        ({"direction": -1}, "step 6 and direction -1, and step 6 and direction 1 by "),
        ({"symbols": ("Ar", "Kr")}, "atom 1 at step 6 is Kr at "),
    ],
)
def test_a_checkpoint_of_another_step(folder: pathlib.Path, change: Dict[str, Any], why: str) -> None:
    state = state_of(folder, 2)
    put(folder, 2, type(state)(**{**vars(state), **change}))
    for jobs in (1, 3):
        status, _, faults = verified(folder, jobs=jobs)
        assert status == 1
        assert any(f"checkpoints/a.2.saved is not what the session is there: {why}" in fault for fault in faults), faults


def test_a_checkpoint_of_other_atoms(folder: pathlib.Path) -> None:
    state = state_of(folder, 2)
    scale = type(state.scale)(**{**vars(state.scale), "h": 131073})
    put(folder, 2, type(state)(**{**vars(state), "scale": scale}))
    is_told(
        folder,
        "checkpoints/a.2.saved",
        f"is not what the session is there: its atoms interact differently from those of {folder}/records/a.lj",
    )


def test_a_checkpoint_that_stands_elsewhere(folder: pathlib.Path) -> None:
    told = said(folder)
    told["files"]["checkpoints/a.2.saved"]["after"] = hashlib.sha256(b"").hexdigest()
    say(folder, told)
    renewed(folder)
    (folder / "CITATION.cff").write_text("x")
    status, _, faults = verified(folder)
    why = "stands nowhere in records/a.lj: the record has no command up to which its SHA-256 is so"
    assert status == 1 and f"ljclient: {folder}/checkpoints/a.2.saved {why}" in faults


def test_two_checkpoints_that_are_exchanged(folder: pathlib.Path) -> None:
    one, other = state_of(folder, 1), state_of(folder, 3)
    put(folder, 1, other)
    put(folder, 3, one)
    status, told, _ = verified(folder)
    assert (status, "checkpoints/a.1.saved" in told[-1], "checkpoints/a.3.saved" in told[-1]) == (1, True, True)


def test_a_checkpoint_and_a_record_that_are_no_longer_whole(folder: pathlib.Path) -> None:
    for path in ("checkpoints/a.2.saved", "records/b.lj"):
        text = (folder / path).read_text()
        (folder / path).write_text(text.replace("Ar", "Kr", 1))
        renewed(folder)
    status, told, faults = verified(folder)
    assert status == 1 and "; 2 files do not fit: checkpoints/a.2.saved, records/b.lj; " in told[-1]
    assert any(fault.startswith(f"ljclient: {folder}/checkpoints/a.2.saved is damaged, line ") for fault in faults)
    assert any(fault.startswith(f"ljclient: {folder}/records/b.lj is damaged, line ") for fault in faults)


def is_refused(folder: pathlib.Path, why: str) -> None:
    """Holds that nothing is played, and that verify ends with status 2."""
    status, told, (fault,) = verified(folder, "--program", "/nowhere")
    assert (status, told) == (2, []) and why in fault, fault


PATHS = ["../secret", "/etc/passwd", "records/../../secret", "records/..", "records/.", "records/", "records/a/b.lj", "records//b.lj"]
PATHS += ["study.json", "CITATION.cff", "other/b.lj", "records\\b.lj", "records/b lj", "records/.b", "./records/b.lj", "records/b\x00.lj"]


@pytest.mark.parametrize("path", PATHS)
def test_paths_that_lead_elsewhere(folder: pathlib.Path, path: str) -> None:
    (folder.parent / "secret").write_text("secret")
    told = said(folder)
    told["files"][path] = {"kind": "file", "sha256": sha(folder.parent / "secret"), "bytes": 6}
    say(folder, told)
    is_refused(folder, f"{folder}/study.json names {path!r}, which is no file of a study: these are in records, checkpoints, ")


@pytest.mark.parametrize("path", ["records/b.lj", "figures/column.csv", "checkpoints", "figures", "study.json", "CITATION.cff", "new"])
def test_symbolic_links(folder: pathlib.Path, path: str) -> None:
    """Also to a file or a folder that fits."""
    place = folder / path
    if place.exists():
        shutil.move(place, folder.parent / "moved")
    else:
        (folder.parent / "moved").write_text("x")
    place.symlink_to(folder.parent / "moved")
    is_refused(folder, f"{place} must not be a symbolic link (it is not followed)")


@pytest.mark.parametrize("path", ["records/b.lj", "figures/new"])
def test_what_is_no_regular_file(folder: pathlib.Path, path: str) -> None:
    if (folder / path).exists():
        (folder / path).unlink()
    os.mkfifo(folder / path)
    is_refused(folder, f"{folder / path} must be a regular file, as each file of a study")


def test_a_file_that_became_a_folder(folder: pathlib.Path) -> None:
    (folder / "records" / "b.lj").unlink()
    (folder / "records" / "b.lj").mkdir()
    is_refused(folder, f"{folder}/records/b.lj must be a regular file, as each file of a study")


def changed(*keys: str, value: Any) -> Callable[[Dict[str, Any]], Any]:
    """What gives a key of a manifest another value."""

    def change(told: Dict[str, Any]) -> None:
        for key in keys[:-1]:
            told = told[key]
        told[keys[-1]] = value

    return change


@pytest.mark.parametrize(
    ("change", "why"),
    [
        (changed("format", value="ljserve study 2"), "must have the format `ljserve study 1`, which this client reads, got another"),
        (changed("format", value=1), "must have the format `ljserve study 1`"),
        (changed("state", value="done"), "must have values of "),
        (changed("more", value=1), "must have values of "),
        (changed("files", value=[]), "must have values of "),
        (changed("authors", value=[1]), "must have values of "),
        (lambda told: told.pop("why"), "must have values of "),
        (changed("files", "records/b.lj", value=1), "names 'records/b.lj', and says of it something else than what is said of a record"),
        (changed("files", "records/b.lj", "more", value=1), "names 'records/b.lj', and says of it something else"),
        (changed("files", "records/b.lj", "kind", value="figure"), "names 'records/b.lj', and says of it something else"),
        (changed("files", "records/b.lj", "bytes", value="3"), "without the SHA-256 and the bytes that it has"),
        (changed("files", "records/b.lj", "bytes", value=-1), "without the SHA-256 and the bytes that it has"),
        (changed("files", "records/b.lj", "sha256", value=None), "without the SHA-256 and the bytes that it has"),
        (changed("files", "records/b.lj", "sha256", value="A" * 64), "without the SHA-256 and the bytes that it has"),
        (changed("files", "checkpoints/a.1.saved", "record", value="records/c.lj"), "which is a checkpoint of no record that it names"),
        (changed("files", "checkpoints/a.1.saved", "record", value="figures/column.csv"), "which is a checkpoint of no record"),
        (changed("files", "checkpoints/a.1.saved", "record", value=[1]), "which is a checkpoint of no record that it names"),
        (changed("files", "checkpoints/a.1.saved", "after", value=3), "which is a checkpoint of no record that it names"),
    ],
)
def test_manifests_of_another_shape(folder: pathlib.Path, change: Any, why: str) -> None:
    told = said(folder)
    change(told)
    say(folder, told)
    is_refused(folder, why)


@pytest.mark.parametrize(
    "text",
    [b"", b"{", b"[]\n", b"3\n", b"\xff\xfe", b"[" * 100_000, b'{"format": "ljserve study 1"}\n', b'{"a": NaN}\n'],
    ids=["empty", "cut", "list", "number", "bytes", "deep", "form", "nan"],
)
def test_manifests_that_are_none(folder: pathlib.Path, text: bytes) -> None:
    (folder / "study.json").write_bytes(text)
    is_refused(folder, f"{folder}/study.json must be JSON with sorted keys, each once, indented by one: it is not as it was written")


def test_a_manifest_in_other_words(folder: pathlib.Path) -> None:
    """The same content has one text: keys twice or in another order, or other blanks, are not as it was written."""
    text = (folder / "study.json").read_text()
    told = said(folder)
    others = [
        text + "\n",
        text[:-1],
        text.replace('"why": ""', '"why": "",\n "why": ""'),
        json.dumps(told, sort_keys=True),
        text.replace("\n", "\r\n"),
    ]
    others.append(json.dumps(dict(reversed(list(told.items()))), indent=1) + "\n")
    for other in others:
        (folder / "study.json").write_bytes(other.encode())
        is_refused(folder, "it is not as it was written")


def test_an_unfinished_study_with_a_citation(tmp_path: pathlib.Path) -> None:
    with pytest.raises(RuntimeError), begun(tmp_path / "two") as (s, user):
        dimer(user).advance(1)
        raise RuntimeError
    told = said(tmp_path / "two")
    (tmp_path / "two" / "CITATION.cff").write_text("cff-version: 1.2.0\n")
    is_told(tmp_path / "two", "CITATION.cff", "is there, and the study is not finished")
    (tmp_path / "two" / "CITATION.cff").unlink()
    told.update(state="finished", why="")
    say(tmp_path / "two", told)
    is_told(tmp_path / "two", "CITATION.cff", "is missing")


def test_a_record_without_its_end(tmp_path: pathlib.Path) -> None:
    """Its study may be finished, and is told to be no whole one all the same."""
    folder = tmp_path / "two"
    made(folder)
    path = folder / "records" / "b.lj"
    path.write_text("".join(path.read_text().splitlines(keepends=True)[:-1]))
    renewed(folder)
    status, told, (fault,) = verified(folder)
    assert (status, "; all fit; no end: records/b.lj; " in told[-1]) == (3, True)
    assert "has no `end`" in fault
    assert without_checks(path)[-1] != "end"


def test_a_folder_that_is_no_study(tmp_path: pathlib.Path) -> None:
    (tmp_path / "study.json").mkdir()
    is_refused(tmp_path, f"{tmp_path}/study.json must be a regular file")
    with study(tmp_path / "empty"):
        pass
    assert verified(tmp_path / "empty", "--program", "/nowhere")[0] == 0
