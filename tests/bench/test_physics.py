"""What bench/physics says of a figure beside LAMMPS, and which scripts it runs."""
from __future__ import annotations

import importlib
import importlib.util
import math
import pathlib
import sys
from importlib.machinery import SourceFileLoader
from typing import Any, List

import pytest

BENCH = pathlib.Path(__file__).resolve().parents[2] / "bench"
numpy = pytest.importorskip("numpy", reason="numpy is not installed")


@pytest.fixture(scope="module")
def physics() -> Any:
    """The script as a module. `options` is a module of bench/ here, and one of bin/ for other tests."""
    loader = SourceFileLoader("physics", str(BENCH / "physics"))
    spec = importlib.util.spec_from_loader("physics", loader)
    assert spec is not None
    module = sys.modules["physics"] = importlib.util.module_from_spec(spec)
    with pytest.MonkeyPatch.context() as patch:
        patch.syspath_prepend(str(BENCH))
        patch.delitem(sys.modules, "options", raising=False)
        loader.exec_module(module)
        sys.modules.pop("options", None)
    return module


FIGURES = {
    "near in percent": ([2.5, 0.01, 2.6, 0.001], True),
    "near in standard errors": ([2.5, 0.3, 3.5, 0.4], True),
    "far in both": ([2.5, 0.1, 3.5, 0.1], False),
    "near zero, within errors": ([-3.0, 4.0, 5.0, 3.0], True),
    "far, without an error": ([1.0, math.nan, 1.06, math.nan], False),
    "near, without an error": ([1.0, math.nan, 1.04, math.nan], True),
    "an error as large as it may be": ([2.0, 0.0625, 2.0, math.nan, 3.125], True),
    "an error that is too large": ([2.0, 0.0626, 2.0, math.nan, 3.125], False),
    "no error where one is wanted": ([2.0, math.nan, 2.0, math.nan, 3.0], False),
}


@pytest.mark.parametrize("numbers, is_well", FIGURES.values(), ids=FIGURES)
def test_a_figure_is_judged(physics: Any, numbers: List[float], is_well: bool) -> None:
    figure = physics.Figure("name", "unit", *numbers)
    assert figure.is_well is is_well
    assert str(figure).endswith(" BAD") is not is_well


def test_a_figure_is_told_with_both_differences(physics: Any) -> None:
    line = str(physics.Figure("diffusion", "cm²/s", 2.6, 0.03, 2.5, 0.04))
    assert line.split("  ")[0] == "diffusion"
    assert "2.6 +- 0.03" in line and "2.5 +- 0.04" in line and line.endswith("+2.0 standard errors, +4.0 %")


def test_the_scripts_are_those_of_the_reference(physics: Any, monkeypatch: pytest.MonkeyPatch) -> None:
    """The first is of argon, the second of the mixture. A name that is not there is told, so nothing is skipped."""
    analysis = importlib.import_module("ljclient.analysis")
    monkeypatch.setattr(analysis, "__doc__", "One.\n\n    import math\n\n    a = math.pi\n\nTwo:\n\n    import math\n    b = 2\n")
    assert (physics.study(0)["a"], physics.study(1)["b"]) == (math.pi, 2)
    with pytest.raises(IndexError):
        physics.study(2)
