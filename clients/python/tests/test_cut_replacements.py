"""Sessions that are replaced, copied or sorted anew, and connections that are lost meanwhile: none is only in the client.

Each call is cut at 200 places. The next connection has the older session or the new one, or it says where the new one is.
"""
import warnings
from typing import Any, Callable, Dict, NamedTuple

import pytest

from cuts import Where, cuttable, joined, places, seen, transport_of
from ljclient import ClientError
from support import listed
from test_cuts import OTHERS, PLACES, ROWS, SCALE, prepared

pytestmark = pytest.mark.usefixtures("state")
VELOCITIES = [(0.01 * (number - 4), 0.002, -0.003 * number) for number in range(8)]
WORDS: Dict[str, Any] = {"edge": 8.0, "sigma": 1.0, "epsilon": 0.01, "mass": 40.0, "dt": 2.0}


@pytest.fixture(scope="module")
def file(where: Where, tmp_path_factory: pytest.TempPathFactory) -> Any:
    """The path of a file of another session, at step 7."""
    path = tmp_path_factory.mktemp("saved") / "other"
    with joined(where) as user:
        other = user.load("other", OTHERS, watch=False, **SCALE)
        other.advance(7)
        other.save(path)
        other.drop()
    return path


def moving_atoms() -> Any:
    """Atoms of ASE that move."""
    ase = pytest.importorskip("ase")
    atoms = ase.Atoms("Ar8", positions=[row[1:] for row in ROWS], cell=[8.0] * 3, pbc=True)
    atoms.set_masses([40.0] * 8)
    atoms.set_velocities(VELOCITIES)
    return atoms


class Call(NamedTuple):
    """A call that is cut, the name of the session that it makes or changes, and whether that takes the place of another one."""

    do: Callable[[Any, Any], Any]
    name: str = "a"
    replaces: bool = False


CALLS = {
    "load": Call(lambda user, file: user.load("a", OTHERS, replace=True, watch=False, **SCALE), replaces=True),
    "load in space": Call(lambda user, file: user.load("a", OTHERS, replace=True, order="space", watch=False, **SCALE), replaces=True),
    "load in motion": Call(lambda user, file: user.load("m", moving_atoms(), watch=False, **WORDS), "m"),
    "load_saved": Call(lambda user, file: user.load_saved(file, "a", replace=True, watch=False), replaces=True),
    "copy": Call(lambda user, file: user.session("a", **SCALE).copy("b"), "b"),
    "copy in place": Call(lambda user, file: user.session("a", **SCALE).copy("c", replace=True), "c", replaces=True),
}


def both(user: Any) -> None:
    """Two sessions."""
    prepared(user)
    user.load("c", OTHERS, watch=False, **SCALE)


@pytest.mark.parametrize("name", CALLS)
def test_a_session_is_the_older_or_the_new_one(where: Where, file: Any, name: str) -> None:
    call = CALLS[name]
    with cuttable(where) as user:
        both(user)
        old = call.name in [row.name for row in user.sessions()]
        before = transport_of(user).sent
        call.do(user, file)
        total = transport_of(user).sent - before
    new = seen(where, call.name)
    with joined(where) as user:
        both(user)
    old = seen(where, call.name)
    others = {"a", "c"} - {call.name}
    for count in places(total, PLACES):
        with cuttable(where) as user:
            both(user)
            transport_of(user).cut_after(count)
            with pytest.raises(ClientError) as lost:
                call.do(user, file)
        with warnings.catch_warnings(record=True) as caught:
            warnings.simplefilter("always")
            with joined(where) as user:
                names = {row.name for row in user.sessions()}
        at = f"cut after {count} of {total} bytes"
        if not any("Load" in str(each.message) for each in caught):
            assert names in (others | {call.name}, others if old is None else others | {call.name}), at
            assert seen(where, call.name) in (old, new), at
            continue
        # The older one is dropped and the new one is not there yet: this is said, and the new one is there under another name.
        assert call.replaces and names == others | {"ljclient-new"}, at
        assert any(f"Load {call.name} once more" in str(each.message) for each in caught), at
        assert f"if {call.name} is gone, what was to replace it is there as ljclient-new" in str(lost.value), at
        kept = seen(where, "ljclient-new")
        assert (kept.atoms, kept.step) == (new.atoms, new.step), at


LIQUID: Dict[str, Any] = {"edge": 20, "sigma": 1, "h": 4096}


def liquid(user: Any) -> Any:
    """Seventy atoms that move, in an order that has nothing to do with space: those of two blocks."""
    for row in user.sessions():
        user.ask(f"DROP {row.name}")
    sites = [(1.1 * (number % 5), 1.1 * (number // 5 % 5), 1.1 * (number // 25)) for number in range(75)]
    symbols = ["Kr" if number % 3 else "Ar" for number in range(70)]
    session = user.load("a", [sites[number * 32 % 75] for number in range(70)], symbols=symbols, watch=False, **LIQUID)
    user.ask_all([f"TUG a {number} {number} {-number} 0" for number in range(70)])
    session.advance(2)
    return session


def test_atoms_that_are_sorted_anew(where: Where) -> None:
    with cuttable(where) as user:
        session = liquid(user)
        before = transport_of(user).sent
        session.resort()
        total = transport_of(user).sent - before
        wanted, symbols = listed(session.places()), session.symbols()
    new = seen(where)
    with joined(where) as user:
        liquid(user)
    old = seen(where)
    assert sorted(old.atoms) == sorted(new.atoms) and old.atoms != new.atoms
    found = set()
    for count in places(total, PLACES):
        with cuttable(where) as user:
            session = liquid(user)
            transport_of(user).cut_after(count)
            with pytest.raises(ClientError):
                session.resort()
        with warnings.catch_warnings():
            warnings.simplefilter("ignore")
            with joined(where) as user:
                # Also its order is known: that of before, or the new one.
                again = user.session("a", order=session.order, **LIQUID)
                assert (listed(again.places()), again.symbols()) == (wanted, symbols), f"cut after {count} of {total} bytes"
        assert seen(where) in (old, new), f"cut after {count} of {total} bytes"
        found.add(seen(where) == new)
    assert False in found
