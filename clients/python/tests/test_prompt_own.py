"""Commands of the prompt alone: physical units, many atoms in one SHOW, files that are read and written, and comments."""
import os
import pathlib
import re
import sys
from typing import Any, Iterator

import pytest

from ljclient import Refused, connect
from ljclient.prompt import completion, explaining, hinting, history, loading, own, physical, shapes
from support import TOKEN, peer, present, stays
from support import says as speaks
from terminals import ARGON, PROMPT, Terminal, environment

DIMER = "2\ndimer\nAr 0 0 0\nAr 1.5 0 0\n"
# Two atoms 1.5 apart in a box of edge 256, in ring units: 1.5 * 2^32 / 256.
PLACES = "OK SHOW a 0 0 0 0 0\nOK SHOW a 0 1 25165824 0 0\n"
# A prompt where prompt_toolkit is not installed.
WITHOUT_TOOLKIT = "import sys; sys.modules['prompt_toolkit'] = None; from ljclient.prompt import main; sys.exit(main([]))"
ANGSTROM, DALTON, BOLTZMANN = 1e-10, 1.66053906660e-27, 1.380649e-23


def exact_step_factor(seconds: Any) -> Any:
    """h of argon, in SI units: dt^2 epsilon / (m sigma^2) in units of 2^-32, before it is rounded."""
    return seconds**2 * 119.8 * BOLTZMANN / (39.948 * DALTON * (3.4 * ANGSTROM) ** 2) * 2**32


@pytest.fixture
def terminal(tmp_path: pathlib.Path) -> Iterator[Any]:
    (tmp_path / "dimer.xyz").write_text(DIMER)
    terminal = Terminal(PROMPT, environment(), cwd=tmp_path)
    terminal.until("ljserve> ")
    yield terminal
    terminal.close()


def says(terminal: Any, line: Any) -> Any:
    """What is shown for a line, up to the next prompt."""
    terminal.type(line + "\r")
    terminal.until(re.escape(line) + "\n")
    return terminal.until("ljserve> ")[: -len("ljserve> ")]


@pytest.fixture
def dimer(terminal: Any) -> Any:
    assert says(terminal, "LOAD a dimer.xyz 256 1 131072  # two atoms") == "OK LOAD a 0 2\n"
    return terminal


def test_several_places(dimer: Any) -> None:
    assert says(dimer, "SHOW a 0..1") == PLACES
    assert says(dimer, "SHOW a 0..2").startswith("ERR 14 NO_ATOM\n")
    assert "a has the atoms 0 to 1" in says(dimer, "SHOW a 5..7")
    assert says(dimer, "SHOW a 1..0") == "  not sent: the first atom must not be after the last one, got `1..0`\n"


def test_a_frame_in_a_file(dimer: Any, tmp_path: pathlib.Path) -> None:
    path = tmp_path / "a.xyz"
    path.write_text("what was there")
    for line in ("DUMP a > a.xyz", "dump a >a.xyz"):
        assert says(dimer, line) == "  2 atoms at step 0 are in a.xyz\n"
    assert path.read_text() == "2\nstep 0\nAr 0.000000 0.000000 0.000000\nAr 1.500000 0.000000 0.000000\n"
    assert "missing: FILE" in says(dimer, "DUMP a >")
    assert "cannot write no/a.xyz: No such file or directory" in says(dimer, "DUMP a > no/a.xyz")
    os.mkfifo(tmp_path / "fifo")
    assert "cannot write fifo: it is a FIFO" in says(dimer, "DUMP a > fifo")
    assert says(dimer, "DUMP b > b.xyz").startswith("ERR 10 NO_SESSION\n")


def test_a_simulation_is_saved_and_goes_on(dimer: Any) -> None:
    says(dimer, "ADVANCE a 20")
    assert says(dimer, "save a a.saved") == "  a at step 20 is in a.saved\n"
    assert says(dimer, "load_saved a.saved b") == "  b goes on at step 20, with 2 atoms\n"
    assert says(dimer, "ADVANCE a 30") == "OK ADVANCE a 50\n"
    assert says(dimer, "ADVANCE b 30") == "OK ADVANCE b 50\n"
    for line in (
        "SHOW {} 0..1",
        "DUMP {}",
        "MEASURE {}",
        "REVERSE {}",
        "BRANCH {} k",
        "LIST {}",
        "START {} 3",
        "SHOW {} 1",
        "RESTORE {} k",
        "TUG {} 1 5 0 0",
        "FORGET {} k",
    ):
        told = says(dimer, line.format("a"))
        assert told.startswith("OK ")
        assert says(dimer, line.format("b")) == told.replace(" a", " b", 1).replace("\nOK SHOW a", "\nOK SHOW b")
    assert says(dimer, "LIST") == "OK LIST 2\na 49 2 0\nb 49 2 0\n"
    told = "  there is a session of that name already\n  use `DROP b`, or another name\n"
    assert says(dimer, "load_saved a.saved b") == f"ERR 11 EXISTS\n{told}"
    assert "cannot read none: No such file" in says(dimer, "load_saved none")


def test_a_simulation_is_not_saved_in_place_of_a_licence(dimer: Any, tmp_path: pathlib.Path) -> None:
    (tmp_path / "LICENSE").write_text("MIT\n")
    told = "cannot write LICENSE: it exists and is not a saved session; use another name, or delete that file first"
    assert says(dimer, "save a LICENSE") == f"  not sent: {told}\n" and (tmp_path / "LICENSE").read_text() == "MIT\n"


def test_a_measurement_in_words(dimer: Any) -> None:
    says(dimer, "ADVANCE a 1")
    # The numbers of docs/PROTOCOL.md for these two atoms; sigma is 2^24 ring units, and h is 2^17.
    kinetic = 693842 * 2**32 / (2 * 2**48 * 2**17) / 2
    potential = -5399727 / 2**24 / 2
    energies = f"kinetic {kinetic:.6g}, potential {potential:.6g}, total {kinetic + potential:.6g} epsilon an atom"
    reply, told = says(dimer, "MEASURE a").split("\n", 1)
    assert reply == "OK MEASURE a 1 2 0 0 0 693842 -5399727"
    assert " ".join(told.split()) == f"{energies}; temperature {kinetic * 2 / 3:.5g} epsilon / k_B"


def test_a_scale_that_is_not_known_is_said(tmp_path: pathlib.Path, user: Any) -> None:
    user.ask(f"LOAD a 256 1 131072 rest {len(DIMER)}", DIMER.encode())
    path = str(tmp_path / "a.saved")
    with pytest.raises(loading.Fault, match="cannot save a: its scale is not known here; use"):
        own.save(user, ["save", "a", path])
    assert own.save(user, ["save", "a", path, "edge=256", "sigma=1", "h=131072"]) == [f"  a at step 0 is in {path}"]
    with pytest.raises(loading.Fault, match="at the server, got 200.0"):
        own.save(user, ["save", "a", path, "edge=200", "sigma=1", "h=131072"])


def test_a_file_is_read(terminal: Any, tmp_path: pathlib.Path) -> None:
    (tmp_path / "inner").write_text("SHOW a 0..1\n")
    lines = ["# a lesson", "LOAD a 256 1 131072 rest 28", *DIMER.splitlines(), ".read inner  # and this"]
    lines += ["ADVANCE a 2", "NONE", "LIST"]
    (tmp_path / "lesson").write_text("\n".join(lines))
    terminal.type(".read lesson\r")
    told = terminal.until("lesson is left at line 9\nljserve> ")
    wanted = [f"ljserve> {line}\n" for line in ("# a lesson", "LOAD a 256 1 131072 rest 28", "SHOW a 0..1", "ADVANCE a 2", "NONE")]
    for line in [*wanted, "OK LOAD a 0 2\n", PLACES, "OK ADVANCE a 2\n", "ERR 06 COMMAND\n"]:
        assert line in told
    assert says(terminal, "LIST") == "OK LIST 1\na 2 2 0\n"
    assert says(terminal, ".read none") == "  not sent: cannot read none: No such file or directory\n"
    assert "missing: FILE" in says(terminal, ".read")


def test_files_that_read_one_another_end(terminal: Any, tmp_path: pathlib.Path) -> None:
    (tmp_path / "round").write_text(".read round\n")
    terminal.type(".read round\r")
    why = "it would be file 9 of files that read one another, of which 8 are the most"
    terminal.until(f"not sent: cannot read round: {why}\n  round is left at line 1\nljserve> ")
    assert says(terminal, "LIST") == "OK LIST 0\n"


@pytest.mark.parametrize(
    "words",
    [
        "edge=21.04 dt=2fs argon",
        "argon edge=2.104nm dt=0.002ps",
        "edge=21.04 dt=2 argon rest",
        "edge=21.04A sigma=3.4A epsilon=119.8K mass=39.948u dt=2fs",
    ],
)
def test_physical_units(user: Any, words: Any) -> None:
    h = round(exact_step_factor(2e-15))
    load = physical.load_of(f"LOAD a {ARGON} {words}")
    dt = 2 * (h / exact_step_factor(2e-15)) ** 0.5
    assert present(load).perform(user) == ["OK LOAD a 0 256", f"  edge 21.04, sigma 3.4, h {h}, and the time step {dt:.7g} fs"]
    user.ask(f"LOAD b 21.04 3.4 {h} rest {ARGON.stat().st_size}", ARGON.read_bytes())
    for name in ("a", "b"):
        user.ask(f"ADVANCE {name} 10")
    shown = user._ask_rows([f"SHOW {name} {atom}" for name in ("a", "b") for atom in (0, 100, 255)]).decode().splitlines()
    assert [row.replace("SHOW a", "SHOW b") for row in shown[:3]] == shown[3:]


@pytest.mark.parametrize(
    "words, why",
    [
        ("dt=10fs", "the time step and the substance must be given"),
        ("argon", "the time step and the substance must be given"),
        ("dt=10as argon", "fs or ps may follow"),
        ("dt=fast argon", "dt= must be followed by a number, which fs or ps may follow, got `fast`"),
        ("dt=2fs xenonn", "a word of the scale must be one of edge="),
        ("h=1.5 argon", "h must be a whole number, got `1.5`"),
        ("dt=2fs argon", "edge must be given, got None"),
        ("edge=21.04 dt=2fs h=4295 argon", "h or dt must be given, and not both, got h=4295 and dt="),
        ("edge=21.04 dt=900fs argon", "dt must be from"),
    ],
)
def test_physical_units_that_are_wrong(user: Any, tmp_path: pathlib.Path, words: Any, why: Any) -> None:
    (tmp_path / "no_box.xyz").write_text("1\nargon\nAr 0 0 0\n")
    with pytest.raises(loading.Fault, match=re.escape(why)):
        present(physical.load_of(f"LOAD a {tmp_path}/no_box.xyz {words}")).perform(user)
    assert user.sessions() == []


def test_the_box_is_that_of_the_file(user: Any, tmp_path: pathlib.Path) -> None:
    path = tmp_path / "boxed.xyz"
    path.write_text('2\nLattice="256 0 0 0 256 0 0 0 256"\nAr 0 0 0\nAr 1.5 0 0\n')
    assert present(physical.load_of(f"LOAD a {path} h=131072 sigma=1")).perform(user) == ["OK LOAD a 0 2", "  edge 256, sigma 1, h 131072"]
    assert user.ask("SHOW a 1").words[-3:] == ["25165824", "0", "0"]


def test_a_faulty_line_of_a_file_is_shown(terminal: Any, tmp_path: pathlib.Path) -> None:
    (tmp_path / "bad.xyz").write_text(DIMER.replace("1.5", "one"))
    told = says(terminal, "LOAD a bad.xyz edge=256 sigma=1 h=131072")
    assert told.startswith("ERR 33 XYZ_NUMBER line 4\n") and "  bad.xyz, line 4: Ar one 0 0\n" in told


def test_atoms_of_another_symbol_are_loaded_by_saying_theirs(terminal: Any, tmp_path: pathlib.Path) -> None:
    (tmp_path / "krypton.xyz").write_text(DIMER.replace("Ar", "Kr"))
    line = "LOAD a krypton.xyz edge=20 dt=2fs argon"
    assert "symbols='Ar'" in says(terminal, line)
    assert says(terminal, f"{line} symbols=Ar").startswith("OK LOAD a 0 2\n")
    assert "1 to 16 printing characters" in " ".join(says(terminal, f"{line} symbols=").split())


@pytest.mark.parametrize(
    "line, told",
    [
        ("ADVANCE a ten", "n must be the number of steps, from 0 to 1000000, got `ten`"),
        ("ADVANCE a", "missing: n, the number of steps, from 0 to 1000000"),
        ("ADVANCE a 1 2", "`2` is a word too many"),
        ("SHOW a -1", "i must be the number of an atom, from 0, got `-1`"),
        ("BRANCH a b/c", "b must be the name under which a simulation is saved: 1 to 16 letters, digits, `_` or `-`, got `b/c`"),
        ("TUG a 0 1 2 0.5", "dz must be a whole number of ring units each, 2^-32 of the edge, from -2147483648 to 2147483647, got `0.5`"),
    ],
)
def test_the_word_that_is_wrong(user: Any, line: Any, told: Any) -> None:
    with pytest.raises(Refused) as refused:
        user.ask(line)
    assert told in explaining.explained(refused.value, user)
    assert hinting.wrong_of(line + " ") is None or str(hinting.wrong_of(line + " ")) == told


def test_a_load_that_is_not_sent_names_the_word(terminal: Any) -> None:
    told = " ".join(says(terminal, "LOAD a dimer.xyz 256 1 131072 rest 28 9").split())
    assert "is a word too many; use `LOAD s FILE" in told


@pytest.mark.parametrize(
    "text, to_come, told",
    [
        ("", "", "`help` lists the commands, Tab completes, Ctrl-D ends"),
        ("ADV", "ANCE s n", ""),
        ("adv", "ance s n", ""),
        ("B", "", ""),
        ("ADVANCE a", " n", "s: the name of a session"),
        ("ADVANCE a ", "n", "n: the number of steps"),
        ("ADVANCE a 5 ", "", ""),
        ("LOAD a x.xyz dt=2fs ", "SUBSTANCE [edge=..] [rest|pair]", "dt=2fs, argon"),
        ("SHOW a ", "i", "i: the number of an atom"),
        ("TUG a 0 1 ", "dy dz", "dy: a whole number of ring units"),
        ("SHOWW a ", "", "there is no command `SHOWW`: is SHOW meant?"),
        ("# a comment", "", ""),
        ("save a ", "FILE", "FILE: a file"),
        ("LIST ", "[s]", ""),
        ("DUMP a ", "[> FILE]", ""),
        ("ADVANCE a 5 # five ", "", ""),
    ],
)
def test_hints(text: Any, to_come: Any, told: Any) -> None:
    assert hinting.words_to_come(text) == to_come
    assert hinting.told(text).startswith(told) and bool(told) == bool(hinting.told(text))


@pytest.mark.parametrize(
    "line, left",
    [
        ("LIST # all", "LIST "),
        ("# all", ""),
        ("LIST", "LIST"),
        ("LOAD a 'x #1.xyz' 9 1 1 # it", "LOAD a 'x #1.xyz' 9 1 1 "),
        ("LOAD a x#1.xyz 9 1 1", "LOAD a x#1.xyz 9 1 1"),
        ("A" * 5000, "A" * 5000),
    ],
)
def test_comments(line: Any, left: Any) -> None:
    assert loading.without_comment(line) == left


@pytest.mark.parametrize("line", [f"HELLO ann {TOKEN}", f"hello ann {TOKEN}", TOKEN, f"# it is {TOKEN}", " ".join(["ab12"] * 8)])
def test_lines_with_a_token_are_not_kept(tmp_path: pathlib.Path, line: Any) -> None:
    kept = history.Lines(str(tmp_path / "history"))
    kept.add(line)
    kept.add("LIST")
    assert kept.lines == ["LIST"] and (tmp_path / "history").read_text() == "LIST\n"


def test_a_long_history_is_cut(tmp_path: pathlib.Path) -> None:
    path = tmp_path / "history"
    path.write_text("".join(f"ADVANCE a {number:0200}\n" for number in range(6000)))
    assert history.Lines(str(path)).lines[0] == f"ADVANCE a {5000:0200}"
    assert path.read_text().count("\n") == 1000


@pytest.mark.parametrize(
    "before, word, found",
    [
        (["save"], "", ["a "]),
        (["save", "a"], "dim", ["dimer.xyz "]),
        ([".read"], "dim", ["dimer.xyz "]),
        (["load_saved"], "d", ["dimer.xyz "]),
        (["DUMP", "a", ">"], "d", ["dimer.xyz "]),
        (["dump"], "", ["a "]),
        ([], ".r", [".read "]),
        ([], "loa", ["load ", "loadmix ", "load_saved "]),
        (["LOAD", "b", "x"], "ar", ["argon "]),
        (["LOAD", "b", "x", "argon"], "d", ["dt="]),
        (["LOAD", "b", "x"], "", []),
    ],
)
def test_completion_of_what_is_said_here(
    user: Any, tmp_path: pathlib.Path, monkeypatch: pytest.MonkeyPatch, before: Any, word: Any, found: Any
) -> None:
    (tmp_path / "dimer.xyz").write_text(DIMER)
    monkeypatch.chdir(tmp_path)
    user.load("a", DIMER, edge=256, sigma=1, h=131072)
    assert completion.candidates(before, word, user) == found


def test_completion_does_not_wait_for_a_server_that_is_silent() -> None:
    with peer(speaks(then=stays)) as port, connect("127.0.0.1", port, "ann", TOKEN, timeout=600) as user:
        assert completion.candidates(["ADVANCE"], "", user) == []
        assert user.unanswered == ["LIST"] and not user.closed


def test_each_usage_has_shapes_that_its_examples_have() -> None:
    for usage, line in [("LOAD s FILE edge sigma h [rest|pair]", "LOAD a x 256 1 131072"), ("SHOW s i..j", "SHOW a 0..9")]:
        assert shapes.wrong_words(line.split(), usage) == []
        assert shapes.usage_for(line.split()) == usage


def test_a_prompt_without_prompt_toolkit() -> None:
    terminal = Terminal([sys.executable, "-c", WITHOUT_TOOLKIT], environment(TERM="xterm"))
    told = " ".join(terminal.until("ljserve> ").split())
    assert "For hints, completion and a history install prompt_toolkit: `pip install prompt_toolkit`, or Debian's" in told
    assert says(terminal, "LIST") == "OK LIST 0\n"
    terminal.type("\x04")
    assert terminal.ended()[0] == 0
    terminal.close()
