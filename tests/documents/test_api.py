"""The reference of the Python client: that it is made without a warning, has each public name, and leaves room in the README."""
import inspect
import os
import pathlib
import re
import shutil
import subprocess
import sys
from typing import Any, List

import pytest
from blocks import TOP

import ljclient
from ljclient import refusals

pytest.importorskip("sphinx", reason="sphinx is not installed")
pytest.importorskip("myst_parser", reason="myst-parser is not installed")

SECONDS = 300
CHANGES = "clients/python/ljclient/changes.py"


def made(folder: Any, make: Any = TOP / "docs" / "api" / "make") -> Any:
    environment = {**os.environ, "PYTHONDONTWRITEBYTECODE": "1"}
    return subprocess.run([sys.executable, make, folder], env=environment, capture_output=True, text=True, timeout=SECONDS)


@pytest.fixture(scope="module")
def page(tmp_path_factory: pytest.TempPathFactory) -> Any:
    """The text of a page of the reference."""
    folder = tmp_path_factory.mktemp("api")
    done = made(folder)
    assert (done.returncode, done.stdout, done.stderr) == (0, f"{folder / 'index.html'}\n", "")
    return lambda name: (folder / f"{name}.html").read_text()


def names_in(text: Any) -> Any:
    """The names that a page describes."""
    return re.findall(r'<dt class="sig [^>]* id="ljclient\.([\w.]+)">', text)


def described(text: Any, name: Any) -> Any:
    """The text that a page has of a name, without marks."""
    return re.sub(r"<[^>]+>", "", text.split(f'id="ljclient.{name}">')[1].split('<dt class="sig')[0])


def test_each_public_name_is_there(page: Any) -> None:
    wanted = {name for name in ljclient.__all__ if not inspect.ismodule(getattr(ljclient, name))}
    shown = names_in(page("package"))
    assert wanted == {name for name in shown if "." not in name}
    assert len(shown) == len(set(shown))


def test_each_method_of_users_and_sessions_is_there(page: Any) -> None:
    shown = set(names_in(page("package")))
    users = "advance ask ask_all close closed load load_mix load_saved session sessions".split()
    sessions = """
        advance start reverse branch restore forget saved heat save resort order tug measure places place positions dump write
        symbols sample thermo write_trajectory to_ase get_step get_target n_atoms edge h dt scale drop
    """.split()
    assert {f"User.{name}" for name in users} | {f"Session.{name}" for name in sessions} <= shown
    old = {"Session.step", "Session.target", "Session.atoms", "User.known", "Order.for_user", "Motion.tugs", "ClientError.rescued"}
    assert not any(name.split(".")[-1].startswith("_") or name in old for name in shown)


def test_each_refusal_is_told(page: Any) -> None:
    text = page("modules")
    classes: List[Any] = [value for value in vars(refusals).values() if isinstance(value, type) and value is not ljclient.Refused]
    assert len(classes) == len(ljclient.Refused.by_number)
    for each in classes:
        assert f"ERR {each.number:02} {each.name}: {each.meaning}." in described(text, f"refusals.{each.__name__}")


def test_modules_that_say_what_is_public_are_there(page: Any) -> None:
    titles = re.findall(r"<h2>(ljclient[\w.]*)", page("modules"))
    named = {"analysis", "prompt", "refusals", "reversal", "state_points", "units", "view"}
    assert {f"ljclient.{name}" for name in named} <= set(titles)
    shown = names_in(page("modules"))
    assert {"units.ARGON", "units.step_factor"} <= set(shown) and "units.Scale" not in shown
    assert {"reversal.echo", "state_points.lattice", "state_points.StatePoint"} <= set(shown)
    assert not any(name.startswith(("units.checked", "units.nano", "units.word")) for name in shown)


def test_sections_of_numpydoc_are_fields(page: Any) -> None:
    text = described(page("modules"), "state_points.lattice")
    assert re.search(r"Parameters.*kind.*density.*\(float\).*Returns.*Return type.*Configuration.*Raises.*ValueError", text, re.S)
    assert "crystal = lattice(" in text and "----" not in text


def test_how_docstrings_are_shown(page: Any) -> None:
    """Parameters are fields, what is indented is code, and what stands in backquotes leads to what it names."""
    text = page("package")
    load = text.split('id="ljclient.User.load">')[1].split('id="ljclient.User.load_mix"')[0]
    assert re.search(r"<strong>sigma</strong> \(<em>float</em>\) . The distance sigma, in the same unit", load)
    assert "below a fifth of the edge" in load and "Parameters\n" not in load and "----" not in load
    assert re.search(r'<a [^>]*href="#ljclient.Session.order"[^>]*><code[^>]*><span class="pre">Session.order</span>', load)
    assert re.search(r"edge: Optional\[(units\.)?Number\] = None", re.sub(r"<[^>]+>", "", load))
    analysis = page("modules").split('id="module-ljclient.analysis"')[1]
    assert re.search(r"<dt>[^\n]*>rdf<[^\n]*</dt><dd><p>The radial distribution", analysis)


def test_members_stand_in_the_order_of_the_sources(page: Any) -> None:
    shown = [name for name in names_in(page("package")) if name.startswith("Session.")]
    some = ["advance", "start", "reverse", "sample", "write_trajectory", "save", "get_step", "measure", "places", "tug", "heat", "branch"]
    assert [name for name in shown if name.split(".")[1] in some] == [f"Session.{name}" for name in some]


@pytest.mark.parametrize(
    "path, text, spoilt, told",
    [
        ("docs/api/errors.md", "\n- `Refused`", "\n[none](none.md)\n- `Refused`", "none.md"),
        (CHANGES, '"""Deletes a saved simulation', '"""Deletes ``a saved simulation', "without end-string"),
    ],
    ids=["link", "mark"],
)
def test_a_warning_is_an_error(tmp_path: pathlib.Path, path: Any, text: Any, spoilt: Any, told: Any) -> None:
    for folder in ("docs/api", "docs/pictures", "clients/python/ljclient"):
        shutil.copytree(TOP / folder, tmp_path / folder)
    before = (tmp_path / path).read_text()
    assert before.count(text) == 1
    (tmp_path / path).write_text(before.replace(text, spoilt))
    done = made(tmp_path / "made", tmp_path / "docs" / "api" / "make")
    assert done.returncode != 0 and told in done.stderr


def test_the_readme_is_a_tutorial() -> None:
    """It has room for what a beginner needs, and what else there is stands in the reference."""
    text = (TOP / "clients" / "python" / "README.md").read_bytes()
    assert len(text) <= 8000
    pages = {path.name for path in (TOP / "docs" / "api").glob("*.md")}
    assert pages == set(re.findall(r"docs/api/(\w+\.md)\)", text.decode()))


def test_nothing_that_is_made_is_in_the_repository() -> None:
    names = {path.name for path in (TOP / "docs" / "api").iterdir() if path.name != "__pycache__"}
    assert {path.rpartition(".")[2] for path in names} == {"md", "rst", "py", "make"}
