"""Bytes as texts: the escapes of a case's lines, and how bytes are shown."""
import re

ESCAPED = re.compile(r"\\(?:x([0-9a-fA-F]{2})|u\{([0-9a-fA-F]{1,6})\}|(.?))", re.S)
NAMED = {"r": b"\r", "n": b"\n", "t": b"\t", "s": b" ", "\\": b"\\"}
AROUND = 60


def bytes_of(text):
    """The bytes that a text spells."""
    made, place = bytearray(), 0
    for found in ESCAPED.finditer(text):
        made += text[place : found.start()].encode() + escaped(found)
        place = found.end()
    return bytes(made + text[place:].encode())


def escaped(found):
    """The bytes of one escape."""
    byte, character, name = found.groups()
    if byte:
        return bytes([int(byte, 16)])
    if character:
        return chr(int(character, 16)).encode()
    if name not in NAMED:
        raise ValueError(f"no such escape: {found.group()}")
    return NAMED[name]


def shown(piece):
    """Bytes as a text of one line for each of theirs: what isn't printed is escaped."""
    return "".join(shown_byte(byte) for byte in piece)


def shown_byte(byte):
    """One byte, escaped where it isn't printed; a line ends after its own."""
    if byte == 10:
        return "\\n\n    "
    if byte == 13:
        return "\\r"
    if byte == 92:
        return "\\\\"
    return chr(byte) if 32 <= byte < 127 else f"\\x{byte:02x}"


def first_difference(wanted, came):
    """Where two texts begin to differ."""
    both = min(len(wanted), len(came))
    return next((at for at in range(both) if wanted[at] != came[at]), both)


def around(piece, place):
    """The text around a place."""
    begin, end = max(0, place - AROUND), place + AROUND
    before = "..." if begin else ""
    after = "..." if end < len(piece) else "|"
    return f"    {before}{shown(piece[begin:end])}{after}"


def difference(part, wanted, came):
    """What is said of a part that differs."""
    place = first_difference(wanted, came)
    lengths = f"{len(wanted)} bytes wanted, {len(came)} came"
    heading = f"  {part} differs at byte {place} ({lengths})"
    sides = ["  wanted:", around(wanted, place), "  came:", around(came, place)]
    return "\n".join([heading, *sides])
