"""Values as people read them, in the words of bplint --readable."""
from __future__ import annotations

import datetime
import decimal
import hashlib
import math
import re
import struct

START = datetime.datetime(2001, 1, 1)
# A decimal of a date has no exponent, so dates closer to the beginning of 2001 keep their bits.
CLOSEST = 1e-5
MINUS_ZERO = struct.pack(">d", -0.0)
# Data of more bytes is not written as a whole, but with so many of the first.
LONG, FRONT = 1024, 32
# By width: the largest number of digits before the point, and of zeros behind it, without an exponent.
LAYOUTS = {4: (13, 6), 8: (16, 5)}
# Characters that a line may not show, halves of surrogate pairs, quotes and backslashes.
ESCAPED = re.compile('[\0-\x1f\x7f-\x9f\u061c\u200e\u200f\u2028-\u202e\u2066-\u2069\ud800-\udfff"\\\\]')


def quoted(text: str) -> str:
    """A text in UTF-8 form."""
    if text.isascii() and text.isalnum():
        return text
    return f'"{ESCAPED.sub(escape, text)}"'


def escape(found: re.Match[str]) -> str:
    character = found[0]
    return f"\\{character}" if character in '"\\' else f"\\U{ord(character):04x}"


def date(octets: bytes) -> str:
    """A date of 8 bytes. If no calendar has it, its bits."""
    seconds: float = struct.unpack(">d", octets)[0]
    if octets == MINUS_ZERO or not math.isfinite(seconds) or 0 < abs(seconds) < CLOSEST:
        return octets.hex()
    exact = decimal.Decimal(repr(seconds))
    whole = exact.to_integral_value(decimal.ROUND_FLOOR)
    try:
        time = START + datetime.timedelta(seconds=int(whole))
    except OverflowError:
        return octets.hex()
    fraction = f"{exact - whole:f}".partition(".")[2].rstrip("0")
    return f"{time.isoformat()}.{fraction}Z" if fraction else f"{time.isoformat()}Z"


def real(octets: bytes) -> str:
    """A real of 4 or 8 bytes, as the shortest decimal that has the same bits."""
    number: float = struct.unpack(">f" if len(octets) == 4 else ">d", octets)[0]
    if math.isnan(number):
        return octets.hex()
    digits = str(number) if math.isinf(number) else laid_out(shortest(number, octets), len(octets))
    return f"{digits} in 4 bytes" if len(octets) == 4 else digits


def shortest(number: float, octets: bytes) -> decimal.Decimal:
    if len(octets) == 8:
        return decimal.Decimal(repr(number))
    tries = (decimal.Decimal(f"{number:.{digits}g}") for digits in range(1, 10))
    return next(shown for shown in tries if narrow(float(shown)) == octets)


def narrow(number: float) -> bytes:
    """The 4 bytes of a number, or nothing if it is too large."""
    try:
        return struct.pack(">f", number)
    except OverflowError:
        return b""


def laid_out(number: decimal.Decimal, width: int) -> str:
    sign, parts, _ = number.normalize().as_tuple()
    digits = "".join(map(str, parts))
    front = "-" if sign else ""
    if not number:
        return f"{front}0.0"
    before, zeros = LAYOUTS[width]
    point = number.adjusted() + 1
    if 0 < point <= before:
        whole = digits[:point].ljust(point, "0")
        return f"{front}{whole}.{digits[point:] or '0'}"
    if -zeros < point <= 0:
        return f"{front}0.{'0' * -point}{digits}"
    rest = f".{digits[1:]}" if digits[1:] else ""
    return f"{front}{digits[0]}{rest}e{point - 1}"


def data(octets: bytes) -> str:
    if len(octets) <= LONG:
        return f"<{octets.hex()}>"
    return f"<{octets[:FRONT].hex()}..> {len(octets)} bytes sha256 {hashlib.sha256(octets).hexdigest()}"
