"""Checks of the blocks that say how a study is verified, and how two records are compared."""
import hashlib
from typing import Any

import pytest

from blocks import all_blocks


def script_of(block: Any, word: str) -> str:
    """The script of the same document in which this stands."""
    (text,) = [each.text for each in all_blocks() if each.document == block.document and each.language == "python" and word in each.text]
    return str(text)


def verified_study(block: Any, folder: Any) -> None:
    """The study is that of the block above."""
    pytest.importorskip("numpy", reason="numpy is not installed")
    folder.python(script_of(block, "s.advance(fluid"))
    summed = hashlib.sha256((folder.path / "fluid-study" / "study.json").read_bytes()).hexdigest()
    *_, verdict = folder.shell(block.text).splitlines()
    assert verdict == f"fluid-study: 1 record, 4 checkpoints, 1 figure, 0 files; all fit; SHA-256 {summed}"
    assert f"sha256:{summed}" in (folder.path / "fluid-study" / "CITATION.cff").read_text()


def compared_records(block: Any, folder: Any) -> None:
    """The second record is that of the same script in other pieces."""
    script = script_of(block, "record=")
    folder.python(script)
    folder.python(script.replace("argon.lj", "other.lj").replace("piece=100", "piece=7"))
    first, second = folder.shell(block.text).splitlines()
    assert first == "both have the same trajectory: 100 steps made"
    assert second.startswith("the first commands that are not the same: ")
