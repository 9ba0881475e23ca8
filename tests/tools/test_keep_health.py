"""The metrics of `tools/keep --metrics` about its server, users and store, and the alerts and board for them."""
import asyncio
import json
import os
import pathlib
import re
import shutil
import signal
import socket
import subprocess
import sys
import urllib.error
import urllib.request
from typing import Any, Dict, List, Tuple

import pytest

from keepers import HELLO, LOAD, LOADED, Keeper, first_line, patched, until
from support import PROGRAM, SECONDS, TOP

sys.path.append(str(TOP / "tools"))
from ljtools.keeping import health, status  # noqa: E402

METRICS = ("--metrics", "127.0.0.1:0")
WATCHING = TOP / "packaging" / "prometheus"


def asked(keeper: Any, path: str) -> Tuple[int, str]:
    """The status and the text of a page."""
    try:
        with urllib.request.urlopen(f"http://{keeper.events('listens')[-1]['metrics']}{path}", timeout=SECONDS) as answer:
            return answer.status, answer.read().decode()
    except urllib.error.HTTPError as error:
        return error.code, error.read().decode()


def values(keeper: Any) -> Dict[str, float]:
    """The samples by their names, with their labels."""
    code, text = asked(keeper, "/metrics")
    assert code == 200
    rows = (line.rsplit(" ", 1) for line in text.splitlines() if not line.startswith("#"))
    return {name: float(value) for name, value in rows}


def loaded(stream: Any) -> None:
    stream.sendall(LOAD + b"ADVANCE a 1\n")
    assert [first_line(stream) for _ in range(3)] == [HELLO, LOADED, b"OK ADVANCE a 1\n"]


def test_figures_of_users_and_of_the_store(tmp_path: pathlib.Path) -> None:
    with Keeper(tmp_path, *METRICS, users=("ann", "ben")) as keeper, keeper.raw("ann") as stream:
        loaded(stream)
        until(lambda: values(keeper)["ljserve_up"] == 1)
        told = values(keeper)
        assert [told[f'ljserve_users{{state="{state}"}}'] for state in ("ready", "put_back", "stopped")] == [1, 0, 0]
        assert (told["ljserve_users_in"], told["ljserve_restarts_total"], told["ljserve_put_back_seconds_left"]) == (1, 0, 0)
        assert (told["ljserve_records"], told["ljserve_record_bytes"]) == (2, len(LOAD + b"ADVANCE a 1\n"))
        assert told["ljserve_syncs_total"] >= 1 and told["ljserve_sync_seconds_total"] >= 0
        assert (told['ljserve_commands_total{user="ann"}'], told['ljserve_steps_total{user="ann"}']) == (2, 1)
        keeper.killed_server()
        assert values(keeper)["ljserve_restarts_total"] == 1


def test_users_who_are_stopped(tmp_path: pathlib.Path) -> None:
    with Keeper(tmp_path, *METRICS, users=("ann", "ben")) as keeper:
        keeper.told(LOAD, "ann")
        keeper.put_users({"ann": (1, 1, 1), "ben": (1, 1, 1)})
        keeper.child.send_signal(signal.SIGHUP)
        keeper.stopped("ann")
        assert until(lambda: values(keeper)['ljserve_users{state="stopped"}']) == 1


def test_a_connection_that_is_one_too_many_is_counted_and_told(tmp_path: pathlib.Path) -> None:
    count = "from ljtools import admission; admission.SECONDS_OF_A_COUNT = 1.0"
    tool = patched(f"from ljtools.keeping import user; user.MAX_WAITING = 0; {count}")
    with Keeper(tmp_path, *METRICS, tool=tool) as keeper, keeper.raw("ann") as second:
        assert second.recv(1) == b""
        assert values(keeper)["ljserve_closed_total"] == 1
        (told,) = until(lambda: keeper.events("closed"))
        assert (told["user"], told["count"]) == ("ann", 1)


def test_who_asks_whether_it_is_well_is_not_counted(tmp_path: pathlib.Path) -> None:
    """A balancer asks twice a second. Users who are denied are counted."""
    with Keeper(tmp_path, *METRICS) as keeper:
        until(lambda: keeper.status()[0] == 0)
        assert keeper.told(b"", "ann", "w" * 32) == b"ERR 01 DENIED\n"
        assert [each["user"] for each in until(lambda: keeper.events("denied"))] == ["ann"]
        told = values(keeper)
        assert (told["ljserve_denied_total"], told['ljserve_open_connections{state="new"}']) == (1, 0)
        assert keeper.events("not in") == []


def test_a_server_that_is_gone_or_hangs(tmp_path: pathlib.Path) -> None:
    tool = patched("from ljtools.keeping import hosts; hosts.SECONDS_TO_ANSWER, hosts.SECONDS_TO_END = 1.5, 4")
    with Keeper(tmp_path, *METRICS, tool=tool) as keeper:
        until(lambda: asked(keeper, "/healthz") == (200, "ok\n"))
        os.kill(keeper.server(), signal.SIGSTOP)
        until(lambda: asked(keeper, "/healthz") == (503, "no server answers\n"))
        assert values(keeper)["ljserve_up"] == 0
        until(lambda: asked(keeper, "/healthz") == (200, "ok\n"))
        assert len(keeper.events("server does not answer")) == 1
        assert asked(keeper, "/") == (404, "Metrics are at /metrics.\n")


def test_a_front_whose_loop_does_not_go_on(monkeypatch: pytest.MonkeyPatch) -> None:
    monkeypatch.setattr(health, "SECONDS_TO_ANSWER", 0.1)
    loop = asyncio.new_event_loop()
    page = health.in_loop(lambda: (200, "ok\n"), loop)
    assert page() == (503, "the front does not answer\n")
    loop.close()
    assert page() == (503, "the front does not answer\n")


def test_an_address_that_is_none_or_taken(tmp_path: pathlib.Path) -> None:
    words = [sys.executable, str(TOP / "tools" / "keep"), "127.0.0.1:0", "kept", "--", PROGRAM, "serve", "--users", "users"]
    (tmp_path / "users").write_text(f"ann {'k' * 32} 8 16384 16\n")
    with socket.create_server(("127.0.0.1", 0)) as taken:
        there = f"127.0.0.1:{taken.getsockname()[1]}"
        for address, code, cause in [
            ("x", 2, "an address must be HOST:PORT, got x"),
            (there, 1, f"cannot listen on {there}: Address already in use"),
        ]:
            words[2:2] = ["--metrics", address]
            done = subprocess.run(words, cwd=tmp_path, capture_output=True, text=True, timeout=SECONDS)
            assert (done.returncode, done.stderr) == (code, f"keep: {cause}\n")
            del words[2:4]


KNOWN: Dict[str, Any] = {
    "since": 0, "process": 1, "at": "127.0.0.1:1", "begun": 3, "last_end": "", "end": "", "server": 7, "restarts": 2,
    "servers": [{"process": 7}], "syncs": 4, "sync_seconds": 0.5,
    "users": {
        "ann": {"state": "is put back", "why": None, "records": 3, "bytes": 70, "left": 6.9, "today": {}},
        "ben": {"state": "stopped", "why": "what is kept is damaged"},
        "cleo": {"state": "ready", "why": None, "records": 1, "bytes": 7, "left": 0.0, "today": {"is_used_up": True}},
    },
}  # fmt: skip


def test_what_is_left_of_what_is_put_back() -> None:
    rows = {name: samples for name, _, _, samples in health.of_front(KNOWN, True, 0)}
    assert rows["ljserve_put_back_seconds_left"] == [({}, 6.9)] and rows["ljserve_records"] == [({}, 4)]
    assert rows["ljserve_users_without_steps"] == [({}, 1)]
    assert rows["ljserve_users"] == [({"state": "ready"}, 1), ({"state": "put_back"}, 1), ({"state": "stopped"}, 1)]
    assert [*status.lines_of(KNOWN, b"ERR 01 DENIED\n")][-3:] == [
        "ann              is put back, 3 records, about 7 s left",
        "ben              stopped: what is kept is damaged",
        "cleo             ready, 1 records, no steps left today",
    ]


def test_prometheus_reads_it(tmp_path: pathlib.Path) -> None:
    parser = pytest.importorskip("prometheus_client.parser", reason="prometheus_client is not installed")
    with Keeper(tmp_path, *METRICS) as keeper:
        families = {family.name: family for family in parser.text_string_to_metric_families(asked(keeper, "/metrics")[1])}
    assert families["ljserve_restarts"].type == "counter" and families["ljserve_users"].type == "gauge"
    assert all(family.documentation for family in families.values())
    # Each metric that is watched is one of these.
    samples = {sample.name for family in families.values() for sample in family.samples} | {"ljserve_commands_total", "ljserve_steps_total"}
    assert {name for words in expressions() for name in re.findall(r"\bljserve_\w+", words)} <= samples


def expressions() -> List[str]:
    """The expressions of alerts and panels."""
    yaml = pytest.importorskip("yaml", reason="PyYAML is not installed")
    rules = [rule for group in yaml.safe_load((WATCHING / "alerts.yml").read_text())["groups"] for rule in group["rules"]]
    assert all(rule["alert"] and rule["labels"]["severity"] and rule["annotations"]["summary"] for rule in rules)
    board = json.loads((WATCHING / "board.json").read_text())
    return [rule["expr"] for rule in rules] + [target["expr"] for panel in board["panels"] for target in panel["targets"]]


def test_alerts_and_a_board_that_parse() -> None:
    words = expressions()
    assert len(words) > 10
    for each in words:
        assert "ljserve" in each and each.count("(") == each.count(")") and each.count("{") == each.count("}")


@pytest.mark.skipif(shutil.which("promtool") is None, reason="promtool is not installed")
def test_prometheus_takes_the_alerts() -> None:
    subprocess.run(["promtool", "check", "rules", str(WATCHING / "alerts.yml")], check=True, timeout=SECONDS)
