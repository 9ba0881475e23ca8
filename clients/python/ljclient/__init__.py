"""A client of `ljserve`: molecular dynamics that can be reversed exactly.

    from ljclient import run, units

    with run() as user:
        argon = user.load("argon", "argon_256.xyz", edge=21.04, dt=2, **units.ARGON)
        start = argon.places()
        argon.advance(1000, progress=True)
        argon.reverse()
        argon.advance(1000)
        argon.reverse()
        assert (argon.places() == start).all()

`user.advance(sessions, n)` advances several sessions at the same time, and `session.start(n)` does not wait.

`connect(host, port, name, token)` connects to a server instead. Each refusal is a class of `ljclient.refusals`.
"""
import sys
from types import ModuleType

TYPE_CHECKING = False  # which type checkers take for True; that of `typing` takes as long as this whole package

if TYPE_CHECKING:
    from typing import Any, List

    from . import refusals, reversal, state_points, units
    from .arrays import distance, least_images
    from .energy_watch import EnergyWarning
    from .ensemble import Job, ensemble
    from .errors import (
        BadReply,
        CannotStart,
        ClientError,
        Closed,
        ConnectionLost,
        Damaged,
        Missing,
        NotRecorded,
        Refused,
        TimedOut,
        Undecided,
    )
    from .leftovers import LeftWarning
    from .measurement import Measurement
    from .mixture import Mixture
    from .motion import Motion
    from .order import Order
    from .sampling import Samples
    from .replies import Row, Saved
    from .session import Session
    from .snapshots import Snapshot
    from .study import Study, study
    from .thermo import Thermo, ThermoInElectronvolt, ThermoInKelvin
    from .transport import PlainTextWarning
    from .units import Scale
    from .connecting import connect, run
    from .user import User

__version__ = "2.0.0"

__all__ = [
    "BadReply",
    "CannotStart",
    "ClientError",
    "Closed",
    "ConnectionLost",
    "Damaged",
    "EnergyWarning",
    "Job",
    "LeftWarning",
    "Measurement",
    "Missing",
    "Mixture",
    "Motion",
    "NotRecorded",
    "Order",
    "PlainTextWarning",
    "Refused",
    "Row",
    "Samples",
    "Saved",
    "Scale",
    "Session",
    "Snapshot",
    "Study",
    "Thermo",
    "ThermoInElectronvolt",
    "ThermoInKelvin",
    "TimedOut",
    "Undecided",
    "User",
    "connect",
    "distance",
    "ensemble",
    "least_images",
    "refusals",
    "reversal",
    "run",
    "state_points",
    "study",
    "units",
]

# The modules that have the names of `__all__`, each of which is imported when one of its names is first asked for.
_NAMES = {
    "arrays": ("distance", "least_images"),
    "connecting": ("connect", "run"),
    "energy_watch": ("EnergyWarning",),
    "ensemble": ("Job", "ensemble"),
    "errors": (
        "BadReply",
        "CannotStart",
        "ClientError",
        "Closed",
        "ConnectionLost",
        "Damaged",
        "Missing",
        "NotRecorded",
        "Refused",
        "TimedOut",
        "Undecided",
    ),
    "leftovers": ("LeftWarning",),
    "measurement": ("Measurement",),
    "mixture": ("Mixture",),
    "motion": ("Motion",),
    "order": ("Order",),
    "sampling": ("Samples",),
    "replies": ("Row", "Saved"),
    "session": ("Session",),
    "snapshots": ("Snapshot",),
    "study": ("Study", "study"),
    "thermo": ("Thermo", "ThermoInElectronvolt", "ThermoInKelvin"),
    "transport": ("PlainTextWarning",),
    "units": ("Scale",),
    "user": ("User",),
}
_MODULE_OF = {name: module for module, names in _NAMES.items() for name in names}


class _Package(ModuleType):
    """This package, whose names are imported at first access and then kept. Its modules are names of it too."""

    def __getattr__(self, name: str) -> "Any":
        from importlib import import_module

        if name.startswith("_"):
            raise AttributeError(f"module {self.__name__!r} has no attribute {name!r}")
        if name in _MODULE_OF:
            found = getattr(import_module(f"{self.__name__}.{_MODULE_OF[name]}"), name)
            self.__dict__[name] = found
            return found
        try:
            return import_module(f"{self.__name__}.{name}")
        except ModuleNotFoundError as error:
            raise AttributeError(f"module {self.__name__!r} has no attribute {name!r}") from error

    def __setattr__(self, name: str, value: object) -> None:
        """As usual, except that `ensemble` stays the function after its module is imported."""
        if not (name in _MODULE_OF and isinstance(value, ModuleType)):
            super().__setattr__(name, value)

    def __dir__(self) -> "List[str]":
        return sorted({*self.__dict__, *__all__})


sys.modules[__name__].__class__ = _Package
