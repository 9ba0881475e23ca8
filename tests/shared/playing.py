"""Plays talks to a program, by `run` and by schedules that count tiles."""
import random
from typing import Sequence, Tuple

from shared.frames import pairs_of_blocks_in_reach
from shared.program import Program
from shared.talks import Exchange, Talk, by_chance, lines_that_run, one_by_one, schedule_of, tiles_of, told_to_a
from shared.texts import must_be

# The number of tasks of a step of four blocks.
ROUNDS = 10


def stepped(talk: Talk) -> Talk:
    """A talk with a step of each kind."""
    talk.measure()
    talk.advance(1)
    talk.show(len(talk.session.symbols) - 1)
    return talk


def must_end_well(status: object, err: bytes) -> None:
    assert (status, err) == (0, b""), f"the program ends with {status}, {err!r}"


def must_tell(program: Program, talk: Talk) -> None:
    """All replies are the reference's."""
    status, told, err = program.run(["run"], talk.stream())
    must_end_well(status, err)
    must_be(told, talk.replies())


def must_have_tiles(program: Program, exchanges: Sequence[Exchange], tiles: int) -> None:
    """A step of each kind has `tiles` tiles, and all replies are as expected."""
    status, printed, err = program.replay_of(schedule_of(exchanges, iter([one_by_one(tiles + 1)] * 2)))
    found, told = tiles_of(printed.decode(), lines_that_run(exchanges), tiles + 1)
    must_end_well(status, err)
    must_be(told.encode(), told_to_a("".join(each.reply for each in exchanges)).encode())
    assert found == [tiles, tiles], found


def must_tell_in_any_order(program: Program, talk: Talk, tiles: Tuple[int, int], dice: random.Random) -> None:
    """The atoms are measured, advanced and shown, by `run` and with results in random order. The number of tiles of a step
    is in the range `tiles`, and at least the number of pairs of blocks within reach."""
    least, most = max(tiles[0], pairs_of_blocks_in_reach(talk)), tiles[1]
    talk.measure()
    talk.advance(1)
    talk.show_all()
    must_tell(program, talk)
    tasks = (by_chance(ROUNDS, dice) for _ in talk.exchanges)
    status, printed, err = program.replay_of(schedule_of(talk.exchanges, tasks))
    found, told = tiles_of(printed.decode(), lines_that_run(talk.exchanges), ROUNDS)
    must_end_well(status, err)
    must_be(told.encode(), told_to_a(talk.replies().decode()).encode())
    assert len(found) == 2 and len(set(found)) == 1 and least <= found[0] <= most, (found, least, most)
