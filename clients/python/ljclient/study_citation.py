"""The citation of a study: `CITATION.cff`, with the SHA-256 of its manifest and the version of the program."""
from __future__ import annotations

import json
from typing import List

from .study_manifest import MANIFEST, Manifest

PROGRAM_TITLE = "ljserve: exactly reversible molecular dynamics, proved"
PROGRAM_AUTHORS = "The ljserve developers"
UNKNOWN_AUTHORS = "The authors of the study"
WORD_OF_PROGRAM = "ljserve "


def citation_of(manifest: Manifest, summed: str) -> bytes:
    """The text of the citation of a study whose manifest has this SHA-256."""
    lines = ["cff-version: 1.2.0", "message: If you use this study, please cite it with its SHA-256.", "type: dataset"]
    lines += [f"title: {_quoted(manifest.title)}", *_authors(manifest.authors or [UNKNOWN_AUTHORS])]
    lines += ["identifiers:", "  - type: other", f"    value: sha256:{summed}"]
    lines += [f"    description: The SHA-256 of {MANIFEST}, which has that of each file of the study"]
    lines += ["references:", "  - type: software", f"    title: {_quoted(PROGRAM_TITLE)}"]
    lines += [f"    version: {_quoted(version)}" for version in versions_of(manifest)[:1]]
    lines += [f"    {line}" for line in _authors([PROGRAM_AUTHORS])]
    return ("\n".join(lines) + "\n").encode("utf-8")


def versions_of(manifest: Manifest) -> List[str]:
    """The versions of the programs that a study has used, as far as they are known."""
    programs = manifest.versions.get("program", [])
    told = [line for line in programs if isinstance(line, str)] if isinstance(programs, list) else []
    return [line[len(WORD_OF_PROGRAM) :] for line in told if line.startswith(WORD_OF_PROGRAM)]


def _authors(names: List[str]) -> List[str]:
    return ["authors:", *(f"  - name: {_quoted(name)}" for name in names)]


def _quoted(text: str) -> str:
    """A text in double quotes for YAML, written as in JSON."""
    return json.dumps(text, ensure_ascii=False)
