"""How `run` finds the program of a wheel, among the others that it looks for."""
import os
import pathlib
from typing import Any, Tuple

import pytest
import sys

from ljclient import CannotStart, locate


def installed(folder: Any, noted: str = "../../bin/ljserve") -> Tuple[Any, str]:
    """A folder of modules where the wheel of a program is, as pip notes it. Returns both."""
    site, program = folder / "lib" / "site", folder / "bin" / "ljserve"
    for made in (site / "ljclient", site / "ljserve-1.0.0.dist-info", program.parent):
        made.mkdir(parents=True)
    (site / "ljserve-1.0.0.dist-info" / "METADATA").write_text("Metadata-Version: 2.1\nName: ljserve\nVersion: 1.0.0\n")
    (site / "ljserve-1.0.0.dist-info" / "RECORD").write_text(f"ljserve-1.0.0.dist-info/METADATA,,\n{noted},,\n")
    program.write_text("#!/bin/sh\n")
    program.chmod(0o755)
    return site, str(program)


@pytest.fixture
def nothing_named(monkeypatch: pytest.MonkeyPatch, tmp_path: pathlib.Path) -> Any:
    """No program is named or on the PATH."""
    monkeypatch.delenv("LJSERVE", raising=False)
    monkeypatch.setenv("PATH", str(tmp_path / "none"))
    return monkeypatch


def test_the_program_of_a_wheel_beside_the_client(tmp_path: pathlib.Path, nothing_named: Any) -> None:
    """The environment may be a folder of the repository, whose own program would have to be built."""
    (tmp_path / "bin").mkdir()
    (tmp_path / "bin" / "ljserve").write_text("")
    (tmp_path / "crates.txt").write_text("")
    site, program = installed(tmp_path / "environment")
    nothing_named.setattr(locate, "__file__", str(site / "ljclient" / "locate.py"))
    assert locate.find_program() == program
    nothing_named.setenv("LJSERVE", "/some/where")
    assert locate.find_program() == "/some/where"


def test_the_program_of_a_wheel_elsewhere_comes_after_the_repository(tmp_path: pathlib.Path, nothing_named: Any) -> None:
    site, program = installed(tmp_path / "environment")
    nothing_named.syspath_prepend(site)
    nothing_named.setattr(locate, "__file__", str(tmp_path / "client" / "locate.py"))
    assert locate.find_program() == program
    nothing_named.setattr(locate, "_of_repository", lambda package: "/the/repository")
    assert locate.find_program() == "/the/repository"


@pytest.mark.parametrize("spoil", [lambda program: os.chmod(program, 0o644), os.unlink], ids=["not_to_be_run", "gone"])
def test_a_wheel_whose_program_is(spoil: Any, tmp_path: pathlib.Path, nothing_named: Any) -> None:
    site, program = installed(tmp_path)
    spoil(program)
    nothing_named.setattr(locate, "__file__", str(site / "ljclient" / "locate.py"))
    nothing_named.setattr(sys, "path", [str(site), *(each for each in sys.path if "packages" not in each)])
    with pytest.raises(CannotStart, match="cannot find ljserve; use .* install the wheel ljserve .*PATH"):
        locate.find_program()
