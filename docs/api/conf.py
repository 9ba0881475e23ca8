"""Settings of Sphinx for the reference of the Python client. What is public is read from the package."""
import importlib.util
import inspect
import pathlib
import pkgutil
import re
import sys
from typing import Any, Iterator, List, Optional, Tuple

CLIENT = pathlib.Path(__file__).resolve().parents[2] / "clients" / "python"
sys.path.insert(0, str(CLIENT))
sys.dont_write_bytecode = True

import ljclient  # noqa: E402
from ljclient.renamed import Renamed  # noqa: E402

project = "ljclient"
release = version = ljclient.__version__
copyright = "The ljserve developers"
extensions = ["sphinx.ext.autodoc", "sphinx.ext.napoleon", "myst_parser"]
# Sections of numpydoc, whose fields are no members of their own.
napoleon_google_docstring = False
napoleon_use_ivar = True
default_role = "py:obj"
html_theme = "alabaster"
html_theme_options = {"page_width": "1200px", "sidebar_width": "300px", "code_font_size": "0.75em"}
highlight_language = "none"
html_copy_source = False
toc_object_entries_show_parents = "hide"
autodoc_member_order = "bysource"
autodoc_typehints_format = "short"
autodoc_preserve_defaults = True
python_use_unqualified_type_names = True

# Libraries that modules of the package need, and that may be missing where the reference is made.
OPTIONAL = ("ase", "numpy", "matplotlib", "MDAnalysis", "prompt_toolkit", "aiohttp", "tqdm")
# MDAnalysis gives warnings of its own as it is imported, and no warning is let pass here.
autodoc_mock_imports = [name for name in OPTIONAL if name == "MDAnalysis" or importlib.util.find_spec(name) is None]
# Classes that are made of several ones.
MANY = ("User", "Session")
# What classes have of Python's own.
PLAIN = "tuple, dict, Exception, Warning, ConnectionError, TimeoutError, ValueError"
# Types that have names in the package, and what stands for them.
TYPES = {
    "~typing.": "",
    "~decimal.": "",
    "~os.": "",
    "Union[int, float, str, Decimal]": "Number",
    "Tuple[Number, float]": "Pair",
    "Optional[Union[str, Sequence[str]]]": "Symbols",
    "Optional[Mapping[str, str]]": "Optional[Replacements]",
    "Union[str, PathLike[str]]": "Path",
    "files.Path": "Path",
    "sampling.Progress": "Progress",
}
UNDERLINE = re.compile(r"-{4,}$")


def in_order(kind: type) -> Iterator[str]:
    """The directives of the public members of a class, then of those that it is made of, the first one last, as they stand in the
    sources. Autodoc itself has members of other files in the order of their names."""
    bases = [each for each in kind.__mro__[1:] if each.__module__.startswith("ljclient.")]
    for name, member in [member for each in (kind, *reversed(bases)) for member in vars(each).items()]:
        if name[0] != "_" and (inspect.isfunction(member) or isinstance(member, property)) and getattr(kind, name) is member:
            yield f"   .. auto{'property' if isinstance(member, property) else 'method'}:: ljclient.{kind.__name__}.{name}"


def members_of(kind: str) -> List[str]:
    """The directive of a class with its members."""
    if kind in MANY:
        return [f".. autoclass:: ljclient.{kind}", "", *in_order(getattr(ljclient, kind)), ""]
    lines = [f".. autoclass:: ljclient.{kind}", "   :members:", f"   :inherited-members: {PLAIN}"]
    return [*lines, "   :exclude-members: of", ""]


def is_raised(value: object) -> bool:
    return inspect.isclass(value) and issubclass(value, BaseException)


def package() -> Iterator[str]:
    """The directives of all public names of the package, those of modules left out."""
    values = {name: getattr(ljclient, name) for name in ljclient.__all__}
    raised = [name for name, value in values.items() if is_raised(value)]
    first = list(MANY)
    classes = [name for name, value in values.items() if inspect.isclass(value) and name not in [*raised, *first]]
    others = [name for name, value in values.items() if not inspect.isclass(value) and not inspect.ismodule(value)]
    kinds = {name: "function" if inspect.isroutine(values[name]) else "data" for name in others}
    yield from ["Functions", "-" * 80, "", *(f".. auto{kind}:: ljclient.{name}\n" for name, kind in kinds.items())]
    for title, names in (("Classes", [*first, *classes]), ("Errors and warnings", raised)):
        yield from [title, "-" * 80, "", *(line for name in names for line in members_of(name))]


def public_modules() -> Iterator[str]:
    """The modules that are public names of the package, and those that say themselves what is public."""
    for found in pkgutil.walk_packages([str(CLIENT / "ljclient")], "ljclient."):
        spec = importlib.util.find_spec(found.name)
        assert spec is not None and spec.origin is not None
        source = pathlib.Path(spec.origin).read_text(encoding="utf-8")
        name = found.name.partition(".")[2]
        if "\n__all__ = " in source or (name in ljclient.__all__ and inspect.ismodule(getattr(ljclient, name))):
            yield found.name


def modules() -> Iterator[str]:
    """The directives of the public modules, without what stands among the names of the package."""
    for module in public_modules():
        name = module.partition(".")[2]
        shown = [each for each in ljclient.__all__ if hasattr(vars(ljclient).get(name), each)]
        hidden = ", ".join(shown)
        yield from [module, "-" * len(module), "", f".. automodule:: {module}", "   :members:", "   :undoc-members:"]
        yield from [*([f"   :exclude-members: {hidden}"] if hidden else []), ""]


def converted(app: Any, what: str, name: str, obj: Any, options: Any, lines: List[str]) -> None:
    """Has Sphinx show as code what stands indented in the text of a docstring, above its sections."""
    end = next((at for at, line in enumerate(lines) if UNDERLINE.match(line)), len(lines))
    for at in reversed(range(1, end)):
        if lines[at].startswith(" ") and not lines[at - 1].strip():
            lines[at:at] = ["::", ""]


def signed(
    app: Any, what: str, name: str, obj: Any, options: Any, signature: Optional[str], returns: Optional[str]
) -> Tuple[Optional[str], Optional[str]]:
    """Names types as the package does. What users do not make themselves is shown without how it is made."""
    if obj in (ljclient.User, ljclient.Session) or is_raised(obj):
        return "", None
    for long, short in TYPES.items():
        signature = signature and signature.replace(long, short)
    return signature, returns and returns.replace("typing.", "")


def skipped(app: Any, what: str, name: str, obj: Any, skip: bool, options: Any) -> Optional[bool]:
    """Leaves out old names, what Python itself says of the fields of a tuple, and what refusals have for the client."""
    is_of_python = str(getattr(obj, "__doc__", "")).startswith("Alias for field number")
    return is_of_python or isinstance(obj, Renamed) or (what == "exception" and name in ("number", "name", "meaning", "by_number")) or None


def filled(app: Any, name: str, source: List[str]) -> None:
    """Puts the directives into the page that names them."""
    for word, lines in (("PUBLIC NAMES", package), ("PUBLIC MODULES", modules)):
        if f"\n{word}\n" in source[0]:
            source[0] = source[0].replace(word, "\n".join(lines()))


def setup(app: Any) -> None:
    app.connect("source-read", filled)
    app.connect("autodoc-process-docstring", converted, priority=400)  # before napoleon
    app.connect("autodoc-process-signature", signed)
    app.connect("autodoc-skip-member", skipped)
