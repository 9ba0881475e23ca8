"""A session in a notebook: by the model of the widget, without a browser, and by a notebook that is executed."""
import re
import xml.etree.ElementTree
from typing import Any, Iterator
from unittest import mock

import pytest

from ljclient import Closed, Missing, notebook, optional, units
from support import DIMER, EXAMPLES, PROGRAM, SECONDS, TOP, listed, wait_until

ROWS = [("A", 1.0, 2.0, 7.0), ("B<", 3.0, 4.0, 1.0), ("A", 5.0, 6.0, 4.0)]
SCALE: Any = {"edge": 8, "sigma": 1, "h": 4096, "watch": False}


class Plain:
    """A widget of ipywidgets that has what it was given, where that is not installed."""

    def __init__(self, children: Any = (), **words: Any):
        self.children, self.value, self.description = list(children), "", ""
        self.presses: Any = []
        self.__dict__.update(words)

    def on_click(self, press: Any) -> None:
        self.presses.append(press)


TOOLS = mock.Mock(HTML=Plain, BoundedIntText=Plain, Button=Plain, VBox=Plain, HBox=Plain)


@pytest.fixture(params=["plain", "ipywidgets"])
def panel(request: Any, user: Any) -> Iterator[Any]:
    """A panel of a session of three atoms, over widgets that stand for those of ipywidgets, and over these."""
    if request.param == "ipywidgets":
        pytest.importorskip("ipywidgets", reason="ipywidgets is not installed")
        yield notebook.show(session_of(user))
        return
    with mock.patch.object(optional, "needed", lambda *_: TOOLS):
        yield notebook.show(session_of(user))


def session_of(user: Any) -> Any:
    session = user.load_mix("a", ROWS, species=("A", "B<"), classes=[(1, 4096, 256)] * 3, edge=8, watch=False)
    session.tug(0, (2**26, 0, 0))
    return session


def parts(panel: Any) -> Any:
    """Picture, numbers, the buttons with the field of steps, and the line for what goes wrong."""
    view, numbers, row, fault = panel.widget.children
    return view, numbers, list(row.children), fault


def press(button: Any) -> None:
    """What a browser does when a button is pressed."""
    if isinstance(button, Plain):
        for each in button.presses:
            each(button)
    else:
        button._click_handlers(button)


def circles(view: Any) -> Any:
    """Of each atom in order of drawing its centre, its radius, its colour and how opaque it is."""
    found = xml.etree.ElementTree.fromstring(view.value).findall("{http://www.w3.org/2000/svg}circle")
    return [tuple(each.get(name) for name in ("cx", "cy", "r", "fill", "fill-opacity")) for each in found]


def step_told(panel: Any) -> int:
    found = re.search(r"step (-?\d+), 3 atoms", parts(panel)[1].value)
    assert found
    return int(found[1])


def test_the_atoms_are_drawn_from_behind_to_the_front(panel: Any) -> None:
    first, second = notebook.COLOURS[:2]
    # A box of 8 is 360 pixels wide, so a length of 1 is 45, and y goes up.
    wanted = [
        ("135.0", "180.0", "22.5", second, "0.34"),
        ("225.0", "90.0", "22.5", first, "0.60"),
        ("45.0", "270.0", "22.5", first, "0.86"),
    ]
    assert circles(parts(panel)[0]) == wanted


def test_the_numbers_are_those_of_a_measurement(panel: Any) -> None:
    measured = panel.session.measure()
    # The displacement of one atom, 8 * 2^26 / 2^32 = 1/8 in a step of dt = 1/1024: a kinetic energy of (128^2) / 2 for three atoms.
    assert f"kinetic {8192 / 3:.4f}, potential {measured.potential_energy / 3:.4f}, total" in parts(panel)[1].value
    assert f"step 0, 3 atoms, {8192 * 2 / 9:.4g} epsilon / k;" in parts(panel)[1].value
    assert parts(panel)[1].value.startswith("<b>a</b>: ") and parts(panel)[3].value == ""


def test_buttons_go_on_and_back_exactly(panel: Any) -> None:
    back, forward, *_ = parts(panel)[2]
    assert [each.description for each in parts(panel)[2]] == ["Back", "Forward", "Play", "Steps"]
    start, seen = listed(panel.session.places()), parts(panel)[0].value
    panel.steps = 7
    press(forward)
    assert (step_told(panel), panel.session.get_step()) == (7, 7)
    assert listed(panel.session.places()) != start and parts(panel)[0].value != seen
    parts(panel)[2][3].value = 3
    press(back)
    assert (step_told(panel), panel.steps) == (4, 3)
    assert [panel.back(), panel.back(), panel.forward()] == [1, -2, 1]
    panel.session.advance(3)
    assert step_told(panel) == 1
    panel.steps = 4
    press(back)
    assert step_told(panel) == 0 and listed(panel.session.places()) == start and parts(panel)[0].value == seen
    assert panel.session.measure().momentum == (2**26, 0, 0)


def test_a_run_is_drawn_on_its_way_and_at_its_end(panel: Any) -> None:
    with mock.patch.object(notebook, "DRAWN_EACH", 0.0), mock.patch.object(panel, "draw", wraps=panel.draw) as draw:
        panel.session.advance(5, progress=panel, piece=1)
    assert draw.call_count == 6 and step_told(panel) == 5
    with mock.patch.object(notebook, "DRAWN_EACH", float("inf")), mock.patch.object(panel, "draw", wraps=panel.draw) as draw:
        panel.session.advance(5, progress=panel, piece=1)
    assert draw.call_count == 1 and step_told(panel) == 10


def test_play_goes_on_until_it_is_paused(panel: Any) -> None:
    play = parts(panel)[2][2]
    panel.steps = 1
    press(play)
    assert panel.is_playing and play.description == "Pause"
    wait_until(lambda: step_told(panel) >= 3)
    before = panel.session.get_step()  # a cell uses the session meanwhile
    press(play)
    assert not panel.is_playing and play.description == "Play"
    assert before <= panel.session.get_step() == step_told(panel)
    panel.pause()


def test_what_goes_wrong_is_told_and_buttons_go_on(panel: Any) -> None:
    _, forward, play, _ = parts(panel)[2]
    fault = parts(panel)[3]
    with mock.patch.object(panel.session.user, "_wire", mock.Mock(ask_all=mock.Mock(side_effect=Closed("<lost>")), asked=0, closed=False)):
        press(forward)
        assert fault.value == "<b>&lt;lost&gt;</b>"
        press(play)
        wait_until(lambda: not panel.is_playing and play.description == "Play")
        with pytest.raises(Closed):
            panel.forward()
    press(forward)
    assert fault.value == "" and step_told(panel) == 10


def test_an_interrupt_on_the_way_back_leaves_the_direction(panel: Any) -> None:
    with mock.patch.object(type(panel.session), "advance", side_effect=KeyboardInterrupt), pytest.raises(KeyboardInterrupt):
        panel.back()
    assert panel.session.advance(2) == 2


@pytest.mark.parametrize("steps, error", [(0, ValueError), (1_000_001, ValueError), (1.5, TypeError)])
def test_steps_are_a_whole_number(panel: Any, steps: Any, error: Any) -> None:
    with pytest.raises(error, match="steps"):
        notebook.show(panel.session, steps)
    with pytest.raises(error, match="steps"):
        panel.steps = steps
    assert panel.steps == 10


def test_a_session_without_a_scale_and_a_machine_without_ipywidgets(user: Any) -> None:
    user.load("a", DIMER, **SCALE)
    with pytest.raises(ValueError, match="the scale of the session must be known"):
        notebook.show(user.session("a")) if user._forget("a") is None else None
    session = user.session("a", **SCALE)
    with mock.patch.dict("sys.modules", {"ipywidgets": None}), pytest.raises(Missing, match="pip install ipywidgets.*python3-ipywidgets"):
        notebook.show(session)


def test_kelvin_where_epsilon_is_known(user: Any) -> None:
    with mock.patch.object(optional, "needed", lambda *_: TOOLS):
        argon = user.load("argon", EXAMPLES / "argon_256.xyz", edge=21.04, dt=2, **units.ARGON)
        panel = notebook.show(argon)
    assert ", 0 K; kinetic 0.0000" in parts(panel)[1].value and len(circles(parts(panel)[0])) == 256


def test_a_notebook_that_is_executed(tmp_path: Any) -> None:
    for module in ("ipywidgets", "ipykernel"):
        pytest.importorskip(module, reason=f"{module} is not installed")
    nbclient: Any = pytest.importorskip("nbclient", reason="nbclient is not installed")
    nbformat: Any = pytest.importorskip("nbformat", reason="nbformat is not installed")
    cells = [
        f"import sys; sys.path.insert(0, {str(TOP / 'clients' / 'python')!r})\nfrom ljclient import notebook, run\n"
        f"user = run({PROGRAM!r})\npair = user.load('pair', {DIMER!r}, edge=8, sigma=1, h=4096, watch=False)",
        "panel = notebook.show(pair, 5)\npanel",
        "panel.forward(); pair.advance(3, progress=panel); panel.back(); user.close(); print(panel.widget.children[1].value)",
    ]
    book = nbformat.v4.new_notebook(cells=[nbformat.v4.new_code_cell(cell) for cell in cells])
    client = nbclient.NotebookClient(book, timeout=SECONDS, kernel_name="python3", resources={"metadata": {"path": str(tmp_path)}})
    client.comm_open_handlers.clear()  # of what widgets do in a browser, which ipywidgets 6 asks for in other words
    client.execute()
    shown = [output["data"] for output in book.cells[1].outputs if "data" in output]
    assert ["application/vnd.jupyter.widget-view+json" in data for data in shown] == [True]
    told = "".join(output.get("text", "") for output in book.cells[2].outputs if output.get("name") == "stdout")
    assert told.startswith("<b>pair</b>: step 3, 2 atoms, "), book.cells[2].outputs
