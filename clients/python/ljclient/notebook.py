"""A session in a notebook: its atoms, step and energies, with buttons that advance and go back.

    from ljclient import notebook, run, units

    user = run()
    argon = user.load("argon", "argon_256.xyz", edge=21.04, dt=2, **units.ARGON)
    panel = notebook.show(argon)
    panel

It needs ipywidgets, and a notebook that shows its widgets, such as JupyterLab.
"""
from __future__ import annotations

import html
import threading
import time
from typing import TYPE_CHECKING, Any, Callable, List, Sequence, Tuple

from . import arrays, optional
from .errors import ClientError
from .measurement import Measurement, known
from .names import whole_of

if TYPE_CHECKING:
    from .session import Session

WHY = "a session in a notebook is shown by"
PIXELS = 360
# Time between drawings while steps are made, in seconds.
DRAWN_EACH = 0.2
MOST_STEPS = 1_000_000
# Colours of atoms by their symbols in order of appearance: first blue and orange, which colour-blind people can distinguish.
COLOURS = ("#3b7dd8", "#e08a1e", "#2a9d6f", "#a05fc4")


def show(session: "Session", steps: int = 10) -> "Panel":
    """Returns a panel that shows a session and can advance it.

    Parameters
    ----------
    session : Session
        A session whose scale is known.
    steps : int
        The number of steps for each press of a button, from 1 to 1,000,000. A field of the panel changes it.

    Returns
    -------
    Panel
        The panel. A notebook displays it if it is the last expression of a cell.

    Raises
    ------
    Missing
        If ipywidgets is not installed.
    ValueError
        If the scale of the session is not known, or `steps` is out of range.

    Examples
    --------
    >>> with run() as user:
    ...     pair = user.load("pair", [(0, 0, 0), (1.5, 0, 0)], symbols="Ar", edge=20, sigma=1, h=4295)
    ...     panel = show(pair)
    ...     panel.forward(), panel.forward(), panel.back()
    (10, 20, 10)
    """
    return Panel(session, steps)


class Panel:
    """The panel that `show` returns. Its buttons do the same as its methods, so a cell may call these too.

    session  the session
    steps    the number of steps for each press of a button
    widget   the widget of ipywidgets

    A button waits while a cell uses the session's user, and a cell while a button does. Errors of buttons appear in the panel's
    last line. Calls in a cell raise them. `session.advance(1000, progress=panel)` draws the session meanwhile.
    """

    def __init__(self, session: "Session", steps: int = 10):
        known(session.scale)
        self.session = session
        self._tools = optional.needed("ipywidgets", WHY, "ipywidgets", "python3-ipywidgets")
        self._symbols: Sequence[str] = session.symbols()
        self._drawn_at = 0.0
        self._stop = threading.Event()
        self._thread: Any = None
        self._picture = self._tools.HTML()
        self._numbers = self._tools.HTML()
        self._fault = self._tools.HTML()
        self._steps = self._tools.BoundedIntText(value=_checked_steps(steps), min=1, max=MOST_STEPS, description="Steps")
        self._play_button = self._button("Play", self._play_or_pause)
        buttons = [self._button("Back", self.back), self._button("Forward", self.forward), self._play_button, self._steps]
        self.widget = self._tools.VBox([self._picture, self._numbers, self._tools.HBox(buttons), self._fault])
        self.draw()

    def __repr__(self) -> str:
        return f"Panel({self.session!r})"

    def __call__(self, done: int, total: int) -> None:
        """Draws the session at most five times a second while steps are made, and at the end, for `progress=panel`."""
        if done >= total or time.monotonic() - self._drawn_at >= DRAWN_EACH:
            self.draw()

    def _ipython_display_(self) -> None:
        optional.needed("IPython.display", WHY, "ipython", "python3-ipython").display(self.widget)

    @property
    def steps(self) -> int:
        """The number of steps for each press of a button."""
        return int(self._steps.value)

    @steps.setter
    def steps(self, steps: int) -> None:
        self._steps.value = _checked_steps(steps)

    @property
    def is_playing(self) -> bool:
        """Whether the session advances by itself, until `pause`."""
        return self._thread is not None and self._thread.is_alive()

    def forward(self) -> int:
        """Advances by `steps`, and returns the step number."""
        step = self.session.advance(self.steps)
        self.draw()
        return step

    def back(self) -> int:
        """Goes back by `steps` exactly, and returns the step number. The direction is as before."""
        with self.session.user.lock:
            self.session.reverse()
            try:
                self.session.advance(self.steps)
            finally:
                step = self.session.reverse()
        self.draw()
        return step

    def play(self) -> None:
        """Advances the session by itself in a thread, by `steps` after each picture, until `pause`."""
        if not self.is_playing:
            self._stop.clear()
            self._play_button.description = "Pause"
            self._thread = threading.Thread(target=self._go_on, name="ljclient panel", daemon=True)
            self._thread.start()

    def pause(self) -> None:
        """Ends `play`, and returns when the session has stopped."""
        self._stop.set()
        if self._thread is not None and self._thread is not threading.current_thread():
            self._thread.join()
        self._play_button.description = "Play"

    def draw(self) -> None:
        """Shows the session as it is now, even if a cell has changed it."""
        with self.session.user.lock:
            measured, positions = self.session.measure(), arrays.listed(self.session.positions())
        self._picture.value = picture(positions, self._symbols, self.session.edge, self.session.scale.sigma)
        self._numbers.value = told(self.session.name, measured)
        self._fault.value = ""
        self._drawn_at = time.monotonic()

    def _button(self, text: str, press: Callable[[], Any]) -> Any:
        button = self._tools.Button(description=text)
        button.on_click(lambda _: self._press(press))
        return button

    def _press(self, press: Callable[[], Any]) -> bool:
        """Runs the action of a button. Returns whether it succeeded. An error is shown in the panel."""
        try:
            press()
        except (ClientError, ValueError) as error:
            self._fault.value = f"<b>{html.escape(str(error))}</b>"
            return False
        return True

    def _play_or_pause(self) -> None:
        if self.is_playing:
            self.pause()
        else:
            self.play()

    def _go_on(self) -> None:
        while not self._stop.is_set() and self._press(self.forward):
            self._stop.wait(DRAWN_EACH / 10)
        self._play_button.description = "Play"


def _checked_steps(steps: int) -> int:
    if not 1 <= whole_of(steps, "steps") <= MOST_STEPS:
        raise ValueError(f"steps must be from 1 to {MOST_STEPS:,}, got {steps}")
    return int(steps)


def told(name: str, measured: Measurement) -> str:
    """A line of HTML with the numbers of a session: energies per atom in epsilon, the kinetic energy half a step ago."""
    each = 1 / measured.atoms
    unit = "epsilon / k" if known(measured.scale).epsilon is None else "K"
    energies = f"kinetic {measured.kinetic_energy * each:.4f}, potential {measured.potential_energy * each:.4f}"
    total = f"total {measured.total_energy * each:.4f} epsilon an atom"
    return (
        f"<b>{html.escape(name)}</b>: step {measured.step}, {measured.atoms} atoms, {measured.temperature:.4g} {unit}; {energies}, {total}"
    )


def picture(positions: Sequence[Sequence[float]], symbols: Sequence[str], edge: float, sigma: float) -> str:
    """The atoms as SVG, seen along z: circles with diameter sigma. Those in front are drawn last and darker."""
    scale = PIXELS / edge
    kinds = {symbol: COLOURS[number % len(COLOURS)] for number, symbol in enumerate(dict.fromkeys(symbols))}
    rows: List[Tuple[float, str]] = []
    for (x, y, z), symbol in zip(positions, symbols):
        place = f'cx="{x * scale:.1f}" cy="{PIXELS - y * scale:.1f}" r="{sigma * scale / 2:.1f}"'
        rows.append((z, f'<circle {place} fill="{kinds[symbol]}" fill-opacity="{0.25 + 0.7 * z / edge:.2f}"/>'))
    circles = "".join(circle for _, circle in sorted(rows, key=lambda row: row[0]))
    size = f'width="{PIXELS}" height="{PIXELS}"'
    box = f'<rect {size} fill="white" stroke="#555"/>'
    return f'<svg xmlns="http://www.w3.org/2000/svg" {size} role="img" aria-label="{len(rows)} atoms in their box">{box}{circles}</svg>'
