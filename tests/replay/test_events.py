"""Each kind of event is read as it is written, and each of its numbers changes what is printed."""
import pytest
from schedule_tables import events
from shared.program import Program


def test_a_line_of_each_event(program: Program) -> None:
    assert program.replay_of(events.EACH_EVENT.encode()) == (0, b"", b"")


def test_a_line_after_each_event(program: Program) -> None:
    wanted = f"ljserve: schedule line {events.EACH_EVENT_LINES + 1}\n".encode()
    assert program.replay_of(events.EACH_EVENT.encode() + b"x\n") == (2, b"", wanted)


def test_a_schedule_of_each_event(program: Program) -> None:
    assert program.replay_of(events.SCHEDULE.encode()) == (0, events.TOLD.encode(), b"")


@pytest.mark.parametrize("schedule", [pytest.param(schedule, id=name[:80]) for name, schedule in events.changed()])
def test_another_event_tells_something_else(program: Program, schedule: str) -> None:
    status, told, _ = program.replay_of(schedule.encode())
    assert status == 0 and told != events.TOLD.encode()
