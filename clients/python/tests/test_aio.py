"""The client for asyncio: the same calls with the same words and the same results, one after the other, in a thread of a connection."""
import asyncio
import inspect
import pathlib
import threading
from typing import Any, List

import pytest

from aio_stub import STUB, aio, laid_out, stub
from ljclient import Closed, ConnectionLost, refusals, run, session as sessions, user as users
from ljclient.renamed import Renamed
from support import DIMER, PROGRAM, free_port, listed
from test_types import told

SCALE: Any = {"edge": 256, "sigma": 1, "h": 131072, "watch": False}
USING = """\
import asyncio
from typing import List
from ljclient import aio, units

async def main() -> List[int]:
    async with aio.connect("127.0.0.1", 4000, "ann", "a" * 32, retry=30) as user:
        argon = await user.load("argon", "argon_256.xyz", edge=21.04, dt=2, **units.ARGON)
        step: int = await argon.advance(100, progress=True)
        places = [frame.places async for frame in argon.frames(10, 5)]
        steps: List[int] = await user.advance([argon, await argon.copy("other")], 5)
        async with user.unrecorded("argon"):
            temperature: float = (await argon.measure()).temperature
        print(places, temperature, argon.scale.edge, argon.user.closed, step + await argon.get_step())
    other = await aio.run(sessions=2)
    await other.close()
    return steps

asyncio.run(main())
"""
WRONG = {
    "await argon.n_atoms": 'Incompatible types in "await" (actual type "int", expected type "Awaitable[Any]")',
    "argon.advance(1) + 1": 'Unsupported operand types for + ("Coroutine[Any, Any, int]" and "int")',
    "await argon.advance('1')": 'Argument 1 to "advance" of "Session" has incompatible type "str"; expected "int"',
    "await argon.step_by(1)": '"Session" has no attribute "step_by"',
    "argon.frames(1, 2).__next__()": '"AsyncIterator[Snapshot]" has no attribute "__next__"',
}


def test_the_types_are_those_of_the_client() -> None:
    pytest.importorskip("black")
    assert STUB.read_text() == laid_out(stub())


@pytest.mark.parametrize("kind", [users.User, sessions.Session])
def test_each_call_is_there_with_its_words(kind: Any) -> None:
    here = getattr(aio, kind.__name__)
    old = {name for name, member in vars(kind).items() if isinstance(member, Renamed)}
    public = {name for name in dir(kind) if not name.startswith("_")}
    assert public - old - set(aio.LEFT_OUT) == {name for name in public if hasattr(here, name)}
    methods = [name for name in public if hasattr(here, name) and inspect.isfunction(getattr(kind, name)) and name != "close"]
    assert len(methods) >= 10
    for name in methods:
        assert inspect.signature(getattr(here, name)) == inspect.signature(getattr(kind, name))
        assert getattr(here, name).__doc__ == getattr(kind, name).__doc__
        assert inspect.iscoroutinefunction(getattr(here, name)) != (name in (*aio.ITERATED, *aio.BLOCKS))


def test_a_script_has_its_types(tmp_path: pathlib.Path) -> None:
    (tmp_path / "using.py").write_text(USING)
    status, text = told(tmp_path, "using.py")
    assert status == 0, text
    (tmp_path / "wrong.py").write_text("".join(USING.replace("    return steps\n", f"    return {line}\n") for line in WRONG))
    status, text = told(tmp_path, "wrong.py")
    assert status == 1 and all(why in text for why in WRONG.values()), text


def test_calls_return_what_they_return_without_it() -> None:
    async def script() -> List[Any]:
        async with aio.run(PROGRAM) as user:
            one = await user.load("a", DIMER, **SCALE)
            found: List[Any] = [await one.advance(5), await one.reverse(), await one.tug(0, (5, 0, 0)), await one.measure()]
            found += [listed(await one.places()), str(await one.velocities()), await one.get_step(), await one.get_target(), one.n_atoms]
            found += [[frame.step async for frame in one.frames(2, 3)], [row async for row in one.thermo(1, 2)]]
            two = await one.copy("b")
            found += [await user.advance([one, two], [1, 2]), await two.dump(), await user.sessions(), two.name, one.scale, one.edge]
            assert (two.user, one.user) == (user, user)
            assert repr(two) == "aio.Session('b')" and repr(user) == "aio.User(run, sessions_seen=['a', 'b'])"
            await two.drop()
            return [*found, await user.sessions(), sorted(user.session_names)]

    def as_usual() -> List[Any]:
        with run(PROGRAM) as user:
            one = user.load("a", DIMER, **SCALE)
            found: List[Any] = [one.advance(5), one.reverse(), one.tug(0, (5, 0, 0)), one.measure()]
            found += [listed(one.places()), str(one.velocities()), one.get_step(), one.get_target(), one.n_atoms]
            found += [[frame.step for frame in one.frames(2, 3)], list(one.thermo(1, 2))]
            two = one.copy("b")
            found += [user.advance([one, two], [1, 2]), two.dump(), user.sessions(), two.name, one.scale, one.edge]
            two.drop()
            return [*found, user.sessions(), sorted(user.session_names)]

    assert asyncio.run(script()) == as_usual()


def test_calls_are_made_in_their_order() -> None:
    async def script() -> List[int]:
        async with aio.run(PROGRAM) as user:
            one = await user.load("a", DIMER, **SCALE)
            return list(await asyncio.gather(*(one.advance(number) if number % 2 else one.reverse() for number in range(20))))

    with run(PROGRAM) as user:
        one = user.load("a", DIMER, **SCALE)
        wanted = [one.advance(number) if number % 2 else one.reverse() for number in range(20)]
    assert asyncio.run(script()) == wanted


def test_two_connections_go_on_at_the_same_time_and_so_does_the_loop() -> None:
    """Each waits in its thread for the other one and for the loop, without which none would go on."""
    barrier, is_free = threading.Barrier(2, timeout=60), threading.Event()

    def wait(done: int, total: int) -> None:
        if done == total:
            barrier.wait()
            assert is_free.wait(60)

    async def script() -> List[int]:
        async with aio.run(PROGRAM) as first, aio.run(PROGRAM) as second:
            loaded = [await user.load("a", DIMER, **SCALE) for user in (first, second)]
            both = asyncio.gather(*(one.advance(3, progress=wait) for one in loaded))
            await asyncio.sleep(0)
            is_free.set()
            return list(await both)

    assert asyncio.run(script()) == [3, 3]


def test_a_call_that_is_cancelled_ends_after_a_piece_and_the_next_one_waits_for_it() -> None:
    begun = threading.Event()

    def tell(done: int, total: int) -> None:
        if done:
            begun.set()

    async def script() -> Any:
        async with aio.run(PROGRAM) as user:
            one = await user.load("a", DIMER, **SCALE)
            running = asyncio.ensure_future(one.advance(1_000_000, piece=1, progress=tell))
            not_begun = asyncio.ensure_future(one.tug(0, (5, 0, 0)))
            await asyncio.get_running_loop().run_in_executor(None, begun.wait, 60)
            for task in (not_begun, running):
                task.cancel()
                with pytest.raises(asyncio.CancelledError):
                    await task
            step = await one.get_step()
            return step, await one.get_step(), await one.measure()

    step, again, measured = asyncio.run(script())
    assert 1 <= step == again < 1_000_000
    assert measured.momentum == (0, 0, 0)


def test_a_loop_that_is_left_puts_the_session_right_before_the_next_call() -> None:
    async def script() -> List[int]:
        steps = []
        async with aio.run(PROGRAM) as user:
            one = await user.load("a", DIMER, **SCALE)
            for _ in range(20):
                async for row in one.thermo(2, 5):
                    if row.step % 4:
                        break
                steps.append(await one.get_step())
            rows = one.thermo(1, 5)
            await rows.__anext__()
            await rows.aclose()
            assert [row async for row in rows] == []
            return steps

    with run(PROGRAM) as user:
        one, wanted = user.load("a", DIMER, **SCALE), []
        for _ in range(20):
            for row in one.thermo(2, 5):
                if row.step % 4:
                    break
            wanted.append(one.get_step())
    assert asyncio.run(script()) == wanted


def test_errors_are_those_of_the_client() -> None:
    async def script() -> None:
        with pytest.raises(ConnectionLost, match="cannot connect"):
            await aio.connect("127.0.0.1", free_port(), "ann", "a" * 32)
        with pytest.raises(ValueError, match="a token must be letters and digits"):
            async with aio.connect("127.0.0.1", 1, "ann", "-"):
                pass
        user = await aio.run(PROGRAM)
        with pytest.raises(refusals.NoSession):
            await user.session("x")
        with pytest.raises(TypeError, match="unexpected keyword"):
            await user.load("a", DIMER, edges=3)
        one = await user.load("a", DIMER, **SCALE)
        with pytest.raises(ValueError, match="the number of steps must be 0 or more"):
            await one.advance(-1)
        with pytest.raises(ValueError):
            async for _ in one.frames(0, 3):
                pass
        await user.close()
        await user.close()
        assert user.closed
        with pytest.raises(Closed):
            await one.advance(1)
        assert threading.active_count() < 20

    asyncio.run(script())
