"""Numbers of 32 bits as a text score writes them: from decimals to bits and back, exactly."""
import re
import struct
from fractions import Fraction

DECIMAL = re.compile(r"([+-]?)([0-9]+\.?[0-9]*|\.[0-9]+)(?:[eE]([+-]?[0-9]+))?")
BITS = re.compile(r"[0-9a-f]{8}")
NAMED = {"inf": 0x7F800000, "nan": 0x7FC00000}
INFINITY = 0x7F800000
# the exponent of the smallest value above 0, and how many bits a significand has
LEAST, WIDTH = -149, 24


def rounded(value):
    """The bits of the f32 nearest to a fraction that is not negative, of two the even one."""
    if value == 0:
        return 0
    exponent = max(LEAST, value.numerator.bit_length() - value.denominator.bit_length() - WIDTH)
    while value >= Fraction(2) ** (exponent + WIDTH):
        exponent += 1
    scaled = value / Fraction(2) ** exponent
    whole, rest = divmod(scaled.numerator, scaled.denominator)
    twice = 2 * rest - scaled.denominator
    whole += twice > 0 or (twice == 0 and whole % 2 == 1)
    if whole < 1 << (WIDTH - 1):
        return whole
    return min(INFINITY, ((exponent - LEAST) << (WIDTH - 1)) + whole)


def exact(bits):
    """The value of finite bits without their sign, as a fraction."""
    field, low = bits >> 23 & 0xFF, bits & 0x7FFFFF
    if field == 0:
        return low * Fraction(2) ** LEAST
    return (low + (1 << 23)) * Fraction(2) ** (field - 1 + LEAST)


def written(digits, power):
    """A decimal of these digits, the last of which counts 10^power."""
    text = str(digits).rstrip("0") or "0"
    power += len(str(digits)) - len(text)
    first = power + len(text) - 1
    if -5 <= first < 16:
        if power >= 0:
            return text + "0" * power
        return (text[:power] or "0") + "." + text[power:] if -power < len(text) else "0." + text.rjust(-power, "0")
    return text[0] + ("." + text[1:] if len(text) > 1 else "") + f"e{first}"


def shortest(bits):
    """The decimal with the fewest digits that is nearest to these bits and to no others."""
    value = exact(bits)
    power = len(str(int(value))) - 1 if value >= 1 else -len(str(int(1 / value)))
    for count in range(1, 10):
        for place in (power - count + 1, power - count + 2):
            below = int(value / Fraction(10) ** place)
            tries = [d for d in (below, below + 1) if rounded(d * Fraction(10) ** place) == bits and len(str(d)) <= count]
            if tries:
                return written(min(tries, key=lambda d: abs(d * Fraction(10) ** place - value)), place)
    raise AssertionError("nine digits tell every f32 from its neighbours")


def to_decimal(text):
    """What 8 digits say. A decimal of 8 digits gets a point, since it would be taken for bits."""
    bits = int(text, 16)
    sign, size = "-" if bits >> 31 else "", bits & 0x7FFFFFFF
    if size > INFINITY:
        return "nan"
    if size == INFINITY:
        return sign + "inf"
    said = sign + (shortest(size) if size else "0")
    return said + ".0" if BITS.fullmatch(said) else said


def to_bits(text):
    """The 8 digits of a decimal; ValueError says what is wrong with it."""
    if text.lstrip("+-") in NAMED and len(text) <= 4:
        return f"{NAMED[text.lstrip('+-')] | (text[0] == '-') << 31:08x}"
    found = DECIMAL.fullmatch(text)
    if not found:
        raise ValueError(advice(text))
    sign, digits, exponent = found[1], found[2], int(found[3] or 0)
    if abs(exponent) > 400:
        raise ValueError("the exponent is too large; a score's numbers go up to 3.4028235e38")
    bits = rounded(Fraction(digits) * Fraction(10) ** exponent)
    if bits == INFINITY:
        raise ValueError("too large; a score's numbers go up to 3.4028235e38")
    return f"{bits | (sign == '-') << 31:08x}"


def advice(text):
    if BITS.fullmatch(text.lower()):
        return f"bits are written in lowercase: {text.lower()}"
    if text[:2].lower() == "0x":
        return "bits are written without 0x, as 43dc0000"
    if "," in text:
        return "not a number; write a point for a fraction and no commas, as 0.5"
    if re.fullmatch(r"[0-9a-fA-F]+", text):
        return f"neither a decimal nor bits: bits have 8 digits, here are {len(text)}"
    return "not a number; write a decimal as 440 or 0.5, or the 8 digits of its bits as 43dc0000"


def value(text):
    """The number that 8 digits stand for."""
    return struct.unpack(">f", bytes.fromhex(text))[0]
