"""What `bplint` prints of a value."""
import plistlib
import re

UNSHOWN = re.compile("[\x00-\x1f\x7f-\x9f\u061c\u200e\u200f\u2028-\u202e\u2066-\u2069]")


def key_step(key):
    """The step of a path to the value of a key."""
    return "/" + key.replace("~", "~0").replace("/", "~1")


def units_of(octets):
    """The 16-bit units of a text that is spelled by them."""
    return [int.from_bytes(octets[i : i + 2], "big") for i in range(0, len(octets), 2)]


def quoted(units):
    """A text, by its units, in the form that `get` prints."""
    if units and all(unit < 128 and chr(unit).isalnum() for unit in units):
        return "".join(map(chr, units))
    named = {0x22: '\\"', 0x5C: "\\\\", 0x0A: "\\n"}
    return '"' + "".join(named.get(u, chr(u) if 0x20 <= u <= 0x7E else f"\\U{u:04x}") for u in units) + '"'


def text_of(units):
    """A text, by its units, as Python has it: halves of surrogate pairs stay."""
    return b"".join(unit.to_bytes(2, "big") for unit in units).decode("utf-16-be", "surrogatepass")


def quoted_utf8(units):
    """A text, by its units, in the form of `--utf8`."""
    if units and all(unit < 128 and chr(unit).isalnum() for unit in units):
        return "".join(map(chr, units))
    return '"' + "".join(map(utf8_character, text_of(units))) + '"'


def utf8_character(char):
    if char in '"\\':
        return "\\" + char
    return f"\\U{ord(char):04x}" if UNSHOWN.match(char) or "\ud800" <= char <= "\udfff" else char


def line_of(value):
    """The line of `get`, or None for a value whose bytes are not looked at here."""
    if isinstance(value, bool):
        return "true" if value else "false"
    if isinstance(value, int):
        return f"int {value}"
    if isinstance(value, str):
        return f"text {quoted(units_of(value.encode('utf-16-be')))}"
    if isinstance(value, bytes):
        return f"data <{value.hex()}>"
    if isinstance(value, plistlib.UID):
        return f"uid {value.data}"
    if isinstance(value, list):
        return f"array {len(value)}"
    if isinstance(value, dict):
        return f"dict {len(value)}"
    return None
