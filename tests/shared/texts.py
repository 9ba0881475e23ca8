"""Messages about texts that are long, or that differ."""
import os


def shown(seen: object, most: int = 400) -> str:
    """The repr of an object, without its middle if it is longer than `most`."""
    text = repr(seen)
    return text if len(text) <= most else text[: most // 2] + " .. " + text[-(most // 2) :]


def difference(seen: bytes, wanted: bytes) -> str:
    """The first byte at which two texts differ, their parts there, and their lengths."""
    at = len(os.path.commonprefix([seen, wanted]))
    part = slice(max(0, at - 60), at + 60)
    return f"byte {at} differs: {seen[part]!r} in place of {wanted[part]!r} ({len(seen)} and {len(wanted)} bytes)"


def must_be(seen: bytes, wanted: bytes, about: object = "") -> None:
    """Two texts must be equal. Only the part at the first difference is shown."""
    if seen != wanted:
        raise AssertionError(f"{about}: {difference(seen, wanted)}" if about else difference(seen, wanted))
