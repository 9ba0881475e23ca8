"""Changes the table of functions that the linker makes for 64-bit memory: from 64-bit to 32-bit indices.

wasm-opt of Debian's binaryen lowers 64-bit memory, but does not know 64-bit tables. Here each call through the table takes the low half of
its index, and the table's type and the offset of its functions are 32-bit. The rest of a module stays the same (WebAssembly's binary
format, version 1).
"""

from typing import Iterator

TABLES, ELEMENTS, CODE = 4, 9, 10
FUNCTIONS, OF_64_BITS = 0x70, 0x04
CONSTANT_OF_32_BITS, CONSTANT_OF_64_BITS = 0x41, 0x42
CALL_THROUGH_TABLE, LOW_HALF = 0x11, b"\xa7"
# What follows an instruction: so many numbers in LEB128, or so many bytes. Nothing follows others from 0 to 0xc4.
NUMBERS = {
    **dict.fromkeys((0x02, 0x03, 0x04, 0x0C, 0x0D, 0x10, 0x3F, 0x40, 0x41, 0x42, 0xD0, 0xD2), 1),
    **dict.fromkeys(range(0x20, 0x27), 1),
    **dict.fromkeys(range(0x28, 0x3F), 2),
    CALL_THROUGH_TABLE: 2,
}
BYTES = {0x43: 4, 0x44: 8}
LAST_ALONE, LISTS, MORE = (
    0xC4,
    {0x0E: 1, 0x1C: 0},
    0xFC,
)  # LISTS: a list of numbers, then so many more; MORE: a second number says which instruction it is
NUMBERS_OF_MORE = {**dict.fromkeys(range(8), 0), 8: 2, 9: 1, 10: 2, 11: 1, 12: 2, 13: 1, 14: 2, 15: 1, 16: 1, 17: 1}


class UnknownModule(Exception):
    """A module has something that the linker is not known to make."""


def number_at(data: bytes, at: int) -> tuple[int, int]:
    """A number in LEB128, read as unsigned, and where it ends."""
    value = shift = 0
    while True:
        value |= (data[at] & 0x7F) << shift
        shift, at = shift + 7, at + 1
        if data[at - 1] < 0x80:
            return value, at


def encoded(value: int) -> bytes:
    """A number in LEB128."""
    parts = []
    while value >= 0x80:
        parts.append(value & 0x7F | 0x80)
        value >>= 7
    return bytes([*parts, value])


def behind(data: bytes, at: int, count: int) -> int:
    """Where `count` numbers in LEB128 end."""
    for _ in range(count):
        _, at = number_at(data, at)
    return at


def end_of_instruction(data: bytes, at: int) -> int:
    """Where the instruction at a place ends."""
    code, at = data[at], at + 1
    if code in NUMBERS:
        return behind(data, at, NUMBERS[code])
    if code in LISTS:
        count, at = number_at(data, at)
        return behind(data, at, count + LISTS[code])
    if code == MORE:
        which, at = number_at(data, at)
        if which in NUMBERS_OF_MORE:
            return behind(data, at, NUMBERS_OF_MORE[which])
    elif code <= LAST_ALONE or code in BYTES:
        return at + BYTES.get(code, 0)
    raise UnknownModule(f"the module has the instruction {code:#x}")


def with_wrapped_calls(body: bytes) -> bytes:
    """The body of a function, where each call through the table takes the low half of its index."""
    count, at = number_at(body, 0)
    at = behind(body, at, 2 * count)  # its variables: how many of each type
    parts = [body[:at]]
    while at < len(body):
        end = end_of_instruction(body, at)
        parts += [LOW_HALF] * (body[at] == CALL_THROUGH_TABLE) + [body[at:end]]
        at = end
    return b"".join(parts)


def bodies(content: bytes) -> Iterator[bytes]:
    """The bodies of the functions in a section of code."""
    count, at = number_at(content, 0)
    for _ in range(count):
        size, begin = number_at(content, at)
        at = begin + size
        yield content[begin:at]


def changed(kind: int, content: bytes) -> bytes:
    """The content of a section in the module with a 32-bit table."""
    if kind == TABLES:
        if content[:2] != bytes([1, FUNCTIONS]):
            raise UnknownModule(f"the tables of the module begin with {content[:3].hex()}")
        return content[:2] + bytes([content[2] & ~OF_64_BITS]) + content[3:]
    if kind == ELEMENTS:
        if content[:3] != bytes([1, 0, CONSTANT_OF_64_BITS]):
            raise UnknownModule(f"the functions of the table begin with {content[:3].hex()}")
        return content[:2] + bytes([CONSTANT_OF_32_BITS]) + content[3:]
    if kind == CODE:
        made = [with_wrapped_calls(body) for body in bodies(content)]
        return encoded(len(made)) + b"".join(encoded(len(body)) + body for body in made)
    return content


def with_small_table(module: bytes) -> bytes:
    """A linked module whose table, if it has one, is changed to 32 bits. Raises UnknownModule."""
    at, parts = 8, [module[:8]]
    while at < len(module):
        kind = module[at]
        size, begin = number_at(module, at + 1)
        at = begin + size
        content = changed(kind, module[begin:at])
        parts += [bytes([kind]), encoded(len(content)), content]
    return b"".join(parts)
