"""The types of `ljclient.aio`, made from those of the client: `python3 clients/python/tests/aio_stub.py` writes them anew."""
import importlib
import inspect
import pathlib
import sys
from typing import Any, List

TOP = pathlib.Path(__file__).resolve().parents[3]
sys.path.insert(0, str(TOP / "clients" / "python"))
from ljclient import connecting, session, user  # noqa: E402

# Of which the types tell nothing here, since they are what is made.
aio: Any = importlib.import_module("ljclient.aio")
STUB = TOP / "clients" / "python" / "ljclient" / "aio.pyi"
HEAD = '''"""Made by tests/aio_stub.py from the classes of the client."""
from types import TracebackType
from typing import Any, AsyncContextManager, AsyncIterator, Dict, Generator, Iterable, List, Optional, Sequence, Set, Tuple
from typing import Type, Union

from . import arrays, files, progress as bars, sampling, snapshots, units
from .elements import Replacements
from .files import Path
from .measurement import Measurement
from .mixture import Mixture, Pair, RawClass
from .motion import Motion
from .order import Order
from .replies import Row, Saved
from .species import Symbols
from .thermo import Thermo
from .units import Scale
from .connecting import Program
from .wire import Reply

class Connecting(AsyncContextManager[User]):
    def __await__(self) -> Generator[Any, None, User]: ...
    async def __aenter__(self) -> User: ...
    async def __aexit__(
        self, kind: Optional[Type[BaseException]], error: Optional[BaseException], trace: Optional[TracebackType]
    ) -> None: ...
'''
ENTERED = """\
    async def __aenter__(self) -> User: ...
    async def __aexit__(
        self, kind: Optional[Type[BaseException]], error: Optional[BaseException], trace: Optional[TracebackType]
    ) -> None: ...
"""
# The types of what has no annotation of its own in a class.
HELD = {"name": "str", "address": "str", "session_names": "Set[str]", "mixture": "Optional[Mixture]", "motion": "Optional[Motion]"}
HELD_OF_USER = {**HELD, "name": "Optional[str]"}
SAMPLED = "Optional[sampling.Samples]"


def words_of(function: Any, is_method: bool = True) -> str:
    """The parameters of a function as they stand in a stub."""
    parts: List[str] = []
    for each in list(inspect.signature(function).parameters.values())[is_method:]:
        if each.kind is each.KEYWORD_ONLY and "*" not in parts:
            parts.append("*")
        default = "" if each.default is each.empty else " = ..."
        parts.append(f"{each.name}: {each.annotation}{default}".replace('"', ""))
    return ", ".join(["self", *parts] if is_method else parts)


def member_of(kind: Any, name: str) -> str:
    """A member of a class of `aio`."""
    member = getattr(kind, name, None)
    if inspect.isfunction(member):
        told = str(inspect.signature(member).return_annotation).replace('"', "").replace("'", "")
        if name in aio.ITERATED:
            return f"    def {name}({words_of(member)}) -> {told.replace('Iterator', 'AsyncIterator', 1)}: ..."
        if name in aio.BLOCKS:
            return f"    def {name}({words_of(member)}) -> AsyncContextManager[None]: ..."
        return f"    async def {name}({words_of(member)}) -> {told}: ..."
    if isinstance(member, property):
        told = str(inspect.signature(member.fget or len).return_annotation).replace('"', "").replace("'", "")
    else:
        told = SAMPLED if name == "sampled" else (HELD_OF_USER if kind is user.User else HELD)[name]
    return f"    @property\n    def {name}(self) -> {told}: ..."


def stub() -> str:
    """The whole file."""
    parts = [HEAD]
    for kind, more in ((user.User, ENTERED), (session.Session, "")):
        rows = "\n".join(member_of(kind, name) for name in aio.public_names(kind))
        parts.append(f"class {kind.__name__}:\n{more}{rows}\n")
    for function in (connecting.connect, connecting.run):
        parts.append(f"def {function.__name__}({words_of(function, False)}) -> Connecting: ...")
    return "\n".join(parts) + "\n"


def laid_out(text: str) -> str:
    """The text as black has it."""
    black: Any = importlib.import_module("black")
    told: str = black.format_str(text, mode=black.Mode({black.TargetVersion.PY39}, line_length=140, is_pyi=True))
    return told


if __name__ == "__main__":
    STUB.write_text(laid_out(stub()))
