"""Fronts that share a database; a user may connect to any of them."""
import contextlib
import itertools
import json
import pathlib
import random
import socket
from typing import Any, Dict, List, Sequence

from keep_trials.cluster import Cluster
from keep_trials.keeper import TOOL, Keeper, Quota

STATUS = "select text from note where front > 0 and name = 'status.json' order by front desc"


class Front(Keeper):
    """`tools/keep` over a database."""

    def __init__(
        self, top: pathlib.Path, cluster: Cluster, store: str, program: str, users: Dict[str, Quota], options: Sequence[str],
        tool: Sequence[str],
    ):  # fmt: skip
        top.mkdir()
        self._cluster = cluster
        super().__init__(top, program, users, options, tool, store=store)

    def known(self) -> Dict[str, Any]:
        for (text,) in self._cluster.ask(self.store, STATUS):
            if (told := json.loads(text))["process"] == self.child.pid:
                return dict(told)
        return super().known()


class Fronts:
    """Some fronts."""

    def __init__(
        self, top: pathlib.Path, cluster: Cluster, program: str, users: Dict[str, Quota], options: Sequence[str] = (),
        tool: Sequence[str] = TOOL, count: int = 2, others: Sequence[Cluster] = (),
    ):  # fmt: skip
        self.store = cluster.new(*others)
        self.each = [Front(top / str(number), cluster, self.store, program, users, options, tool) for number in range(count)]
        self._next = itertools.cycle(self.each)

    def raw(self, name: str) -> socket.socket:
        """A connection to the next front that has sent its HELLO."""
        return next(self._next).raw(name)

    def is_ready(self) -> bool:
        return all(front.is_ready() for front in self.each)

    def kill_one(self, rnd: random.Random, of_servers: float) -> None:
        """Kills and restarts a front with its server, or, with probability `of_servers`, kills a server alone."""
        front = rnd.choice(self.each)
        if rnd.random() < of_servers:
            front.kill_one_server(rnd)
        else:
            front.kill()
            front.begin()

    def end(self) -> List[int]:
        return [front.end() for front in self.each]

    def __enter__(self) -> "Fronts":
        return self

    def __exit__(self, *_: object) -> None:
        with contextlib.ExitStack() as stack:
            for front in self.each:
                stack.push(front)
