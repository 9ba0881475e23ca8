"""How each lesson of examples/lessons is done: what is typed, with the right answers, which were found by hand or by
conformance/reference.py."""
from typing import Any, Dict, List

LOAD_MIX = "LOADMIX m halves.xyz 6 A B 1 131072 256 1 131072 256 1 131072 256 pair"
SOLUTIONS: Dict[str, List[str]] = {
    "two_atoms": [
        *("LOAD a two_atoms.xyz 256 1 131072", "SHOW a 1", ".answer 16777216", "ADVANCE a 1", "SHOW a 0", ".answer 25165235"),
        *("ADVANCE a 1", "SHOW a 0", "MEASURE a", ".answer 1185", "REVERSE a", "ADVANCE a 1", "SHOW a 0", "SHOW a 1", ".answer a"),
    ],
    "melting": [
        *("LOAD m crystal.xyz 6 1 131072 pair", "DUMP m", "MEASURE m", ".answer 1.446", "ADVANCE m 100", "DUMP m", ".answer 0.599"),
        *("MEASURE m", ".answer b", "back m", "DUMP m", ".answer 32"),
    ],
    "butterfly": [
        *("LOAD m crystal.xyz 6 1 131072 pair", "BRANCH m start", "ADVANCE m 500", "SHOW m 0", "RESTORE m start", "TUG m 0 1 0 0"),
        *(".answer 2796202", "ADVANCE m 500", "SHOW m 0", ".answer 3855288", "RESTORE m start", "ADVANCE m 500", "SHOW m 0", ".answer b"),
    ],
    "mixing": [
        *(LOAD_MIX, "DUMP m", ".answer 16", "ADVANCE m 150", "DUMP m", ".answer 12", "REVERSE m", "ADVANCE m 149", "DUMP m", ".answer a"),
    ],
    "arrow": [
        *("LOAD a two_atoms.xyz 256 1 131072", "MEASURE a", ".answer 0", "TUG a 0 1000 0 0", "MEASURE a", ".answer 1000000"),
        *("ADVANCE a 50", "MEASURE a", ".answer 1000", "REVERSE a", "MEASURE a", ".answer -1000", "ADVANCE a 49", "SHOW a 0"),
        *("SHOW a 1", ".answer c"),
    ],
}
NAMES = sorted(SOLUTIONS)
OTHERS = {"a": "b", "b": "c", "c": "a"}


def wrong_answer(right: Any) -> str:
    """An answer that is not this one: another choice, or another number."""
    return OTHERS.get(right) or str(float(right) + 7)
