"""Plans of connections: what they send, and how they end."""
import itertools
import random
from typing import List, Optional, Tuple

from soaking.speaker import Speaker, probes
from soaking.words import SESSIONS

CLEAN = {
    "bye": [(b"BYE\n", b"OK BYE\n")],
    "more": [(b"BYE\nDROP a\nDROP b\n" + b"LIST\n" * 50, b"OK BYE\n"), (b"BYE\n" + b"x" * 30000, b"OK BYE\n")],
    "body": [
        (b"LOAD a\nDROP a\n", b"ERR 04 BODY\n"),
        (b"LOAD b 16 1 1 rest 1048577\nDROP a\n", b"ERR 04 BODY\n"),
        (b"LOAD\n", b"ERR 04 BODY\n"),
    ],
    "long": [(b"x" * 65536 + b"\nDROP a\n", b"ERR 05 LONG\n"), (b"DROP a " + b" " * 65530, b"ERR 05 LONG\n")],
    "half": [(b"", b"")],
    "unfinished": [(b"DROP a", b""), (b"DROP a\r", b""), (b"LOAD x 16 1 1 rest 12\n1\nc\nX 0 0 0", b""), (b"x" * 65535, b"")],
}
CLEAN_WEIGHTS = [20, 5, 4, 2, 20, 6]
BREAKS = ["reset", "close", "deaf", "hasty"]
BREAK_WEIGHTS = [50, 25, 1, 12]


class Plan:
    """What a connection sends after HELLO, and how."""

    leaves_late: bool

    def __init__(self, rnd: random.Random, speaker: Speaker, mean: int, before: "Optional[Plan]", last: bool) -> None:
        self.late = before is not None and before.leaves_late
        self.is_asking = last or before is not None and bool(before.breaks or before.leaves_late or before.late)
        self.probes = probes() if self.is_asking else []
        self.breaks: Optional[str] = None
        if rnd.random() < 0.35 and not self.late and not last:
            self.breaks = rnd.choices(BREAKS, BREAK_WEIGHTS)[0]
        if self.breaks == "hasty" and self.is_asking:
            self.breaks = "reset"
        self.items = speaker.quiet_items(mean) if self.breaks == "hasty" else speaker.items(mean)
        if self.breaks == "deaf":
            self.items += [b"DUMP %s\n" % rnd.choice(SESSIONS[:2])] * 800
        self.end = rnd.choices(list(CLEAN), CLEAN_WEIGHTS)[0]
        self.last_said, self.last_told = rnd.choice(CLEAN[self.end])
        self.is_early = self.breaks != "deaf" and rnd.random() < 0.4
        self.is_in_step = self.breaks != "deaf" and rnd.random() < 0.3
        self.size = rnd.choice([1, 7, 100, 1000, 1 << 20])
        self.is_slow = rnd.random() < 0.05
        self.leaves_late = self.breaks == "hasty"
        whole = b"".join(self.items) + self.last_said
        self.said = whole[: rnd.randrange(len(whole) + 1)] if self.breaks and self.breaks != "deaf" else whole

    def whole_items(self) -> Tuple[List[bytes], bool]:
        """The items that are sent whole, and whether any of `last_said` is sent."""
        ends = list(itertools.accumulate(map(len, self.items)))
        count = sum(end <= len(self.said) for end in ends)
        return self.items[:count], count == len(self.items) and len(self.said) > (ends or [0])[-1]
