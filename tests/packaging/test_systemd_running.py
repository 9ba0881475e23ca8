"""The services under a systemd that runs: what the units say holds there, and nothing that a user was told is lost at any end."""
from __future__ import annotations

import pathlib
import re
import shutil
import subprocess
import time
from typing import Any, Iterator, List

import pytest

from roots import Machine, NoRoot, machine_of_its_own
from support import PROGRAM, SECONDS
from test_debian_packages import CLIENT, GO_ON, LOAD, SERVER, STAND_IN, install, making, put

if shutil.which("systemd-nspawn") is None:
    pytest.skip("systemd-container is not installed", allow_module_level=True)
KEEP, PLAIN = "ljserve-keep.service", "ljserve.service"
# Where atom 0 of the dimer is after each step, by hand.
PLACES = ["1 (589, 0, 0)\n", "2 (1774, 0, 0)\n", "3 (3550, 0, 0)\n"]
BOB = "bob bobExampleToken00000000000000002 8 16384 16\n"


@pytest.fixture(scope="module")
def packages(tmp_path_factory: pytest.TempPathFactory) -> Any:
    programs, made = tmp_path_factory.mktemp("programs"), tmp_path_factory.mktemp("packages")
    shutil.copy(PROGRAM, programs / "ljserve-v2")
    put(programs / "ljserve-v3", STAND_IN)
    process = making(made, programs)
    _, said = process.communicate(timeout=20 * SECONDS)
    assert process.returncode == 0, said
    return [made / CLIENT, made / SERVER]


@pytest.fixture
def machine(packages: Any, tmp_path: pathlib.Path) -> Iterator[Machine]:
    """A machine that has these packages, and no user but that of the first installation."""
    (tmp_path / "machine").mkdir()
    try:
        with machine_of_its_own(tmp_path / "machine") as begun:
            for path in ("usr/sbin/policy-rc.d", "var/lib/man-db/auto-update"):
                (begun.path / path).unlink(missing_ok=True)
            begun.run("dpkg", "--purge", "ljserve", "python3-ljclient")
            begun.run("rm", "-rf", "/etc/ljserve", "/etc/default/ljserve", "/var/lib/ljserve")
            install(begun, *packages)
            yield begun
    except NoRoot as reason:
        pytest.skip(f"there is no machine of its own here: {reason}")


def state_of(machine: Machine, unit: str) -> str:
    return str(subprocess.run(machine.command("systemctl", "is-active", unit), capture_output=True, text=True).stdout.strip())


def await_service(machine: Machine) -> None:
    """Waits until the service lets users in."""
    end = time.monotonic() + 10 * SECONDS
    while subprocess.run(machine.command("ljserve-keep", "--status", "/var/lib/ljserve"), capture_output=True).returncode != 0:
        assert time.monotonic() < end, machine.run("journalctl", "-u", KEEP, "--no-pager")
        time.sleep(0.2)


def visit(machine: Machine, words: str, row: str = "") -> str:
    """What a visit of a user prints, by its row of the file of users; else of the one that the installation has made."""
    rows = [line for line in (machine.path / "etc/ljserve/users").read_text().splitlines() if line.startswith("user ")]
    name, token = (row or rows[0]).split()[:2]
    connect = f"import ljclient\nuser = ljclient.connect('127.0.0.1', 4000, {name!r}, {token!r})\n"
    return str(machine.run("python3", "-c", connect + words))


def main_process(machine: Machine, unit: str) -> str:
    return str(machine.run("systemctl", "show", "--property=MainPID", "--value", unit)).strip()


def processes(machine: Machine) -> List[str]:
    """Those of the kept service."""
    return str(machine.run("cat", f"/sys/fs/cgroup/systemd/system.slice/{KEEP}/cgroup.procs")).split()


def test_what_users_have_is_there_after_each_kind_of_end(machine: Machine) -> None:
    """The installation has begun the service. Its front is killed, its server, it is begun anew, and the machine loses its power."""
    assert state_of(machine, KEEP) == "active" and state_of(machine, PLAIN) == "inactive"
    await_service(machine)
    assert visit(machine, LOAD) == PLACES[0]
    ends = [
        lambda: machine.run("systemctl", "kill", "--kill-who=main", "--signal=KILL", KEEP),
        lambda: machine.run("kill", "-KILL", *(number for number in processes(machine) if number != main_process(machine, KEEP))),
        lambda: machine.run("systemctl", "restart", KEEP),
        lambda: machine.run("systemctl", "reload", KEEP),
        machine.lose_power,
    ]
    for number, end in enumerate(ends, 1):
        before = main_process(machine, KEEP)
        end()
        await_service(machine)
        assert visit(machine, GO_ON).split()[0] == str(number + 1), number
        assert (main_process(machine, KEEP) == before) is (number in (2, 4)), number
    assert (
        visit(
            machine, "a = user.session('a', edge=256, sigma=1, h=131072)\na.reverse()\na.advance(5)\nprint(a.get_step(), a.place(0))"
        ).strip()
        == "0 (0, 0, 0)"
    )


def test_users_are_taken_anew_by_a_reload_and_bad_ones_change_nothing(machine: Machine) -> None:
    await_service(machine)
    users = (machine.path / "etc/ljserve/users").read_text()
    machine.put("etc/ljserve/users", users + "bob short 8 16384 16\n", 0o600)
    done = subprocess.run(machine.command("systemctl", "reload", KEEP), capture_output=True, text=True)
    assert done.returncode != 0
    assert "users: line" in machine.run("journalctl", "-u", KEEP, "--no-pager")
    assert visit(machine, LOAD) == PLACES[0]
    machine.put("etc/ljserve/users", users + BOB, 0o600)
    machine.run("systemctl", "reload", KEEP)  # it sends a signal, and returns
    end = time.monotonic() + SECONDS
    while not re.search("begins anew.* ready ", journal := machine.run("journalctl", "-u", KEEP, "--no-pager"), re.S):
        assert time.monotonic() < end, journal
        time.sleep(0.2)
    assert visit(machine, "print(user.sessions())", BOB) == "[]\n"
    assert visit(machine, GO_ON) == PLACES[1]


def test_the_service_has_no_more_rights_than_it_needs(machine: Machine) -> None:
    """What the kernel says of its processes, and what systemd says of the unit: its exposure is told in tenths, 100 being the worst."""
    await_service(machine)
    user = machine.run("id", "-u", "ljserve").strip()
    asked = [machine.command("cat", f"/proc/{number}/status") for number in processes(machine)]
    told = [subprocess.run(words, capture_output=True, text=True) for words in asked]
    statuses = [each.stdout for each in told if each.returncode == 0]  # one that was tried at the start may have ended
    assert len(statuses) >= 2
    for status in statuses:
        assert re.search(rf"^Uid:(\t{user}){{4}}$", status, re.M)
        assert re.findall(r"^(?:CapEff|CapPrm|CapBnd|NoNewPrivs|Seccomp):\t(\w+)$", status, re.M) == ["0" * 16] * 3 + ["1", "2"]
    security = machine.run("systemd-analyze", "security", KEEP, "--no-pager")
    (exposure,) = re.findall(r"Overall exposure level for \S+: ([0-9.]+) ", security)
    assert float(exposure) < 2, security


def test_services_end_by_themselves_where_they_are_to_be_mended(machine: Machine) -> None:
    """Without users none begins. Bad words end it with 2, and it is not begun again and again."""
    await_service(machine)
    machine.put("etc/default/ljserve", (machine.path / "etc/default/ljserve").read_text().replace("127.0.0.1:4000", "here"))
    subprocess.run(machine.command("systemctl", "restart", KEEP))
    end = time.monotonic() + SECONDS
    while state_of(machine, KEEP) != "failed":
        assert time.monotonic() < end
        time.sleep(0.2)
    assert machine.run("systemctl", "show", "--property=ExecMainStatus", "--value", KEEP).strip() == "2"
    machine.put("etc/ljserve/users", "", 0o600)
    machine.run("systemctl", "start", KEEP)
    assert state_of(machine, KEEP) == "inactive" or state_of(machine, KEEP) == "failed"
