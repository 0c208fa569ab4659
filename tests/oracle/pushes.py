"""A push, and how one is made to break rules of document 01."""
import struct
from dataclasses import dataclass, replace

from orders import broken

LENT = 66592


@dataclass(frozen=True)
class Side:
    rate: int
    length: int
    coefficients: tuple
    gain: int
    context: tuple
    data: bytes

    def packed(self):
        return struct.pack(">IQ16hHHhh", self.rate, self.length, *self.coefficients, self.gain, *self.context)

    def described(self, side):
        listed = ",".join(str(c) for c in self.coefficients)
        context = ",".join(str(c) for c in self.context)
        return f"{side} {self.rate} {self.length} {self.data.hex() or '-'} {listed} {self.gain} {context}"


def resized(side, length):
    """With as many bytes as the length wants; a length that is far too long has a few."""
    size = (length + 1) // 2 if length < 200000 else (length % 64 + 1) // 2
    return replace(side, length=length, data=side.data.ljust(size, b"\x5a")[:size])


@dataclass(frozen=True)
class Push:
    channels: int
    left: Side
    right: Side
    last: bool
    lent: int = LENT

    def arguments(self):
        """As the model takes them."""
        return self.channels, [self.left, self.right], self.last, self.lent


class Unbroken(Exception):
    """A push does not break the rules that it was made to break."""


# ---- Rules broken

LONG = [2**32 + i for i in (0, 2)] + [2**61] + [2**62 + i for i in (-1, 0, 1, 2, 3, 16, 65536, 65537, 131072, 131073)]
LONG += [2**63 + i for i in (-1, 0, 2, 19)] + [3 * 2**62 + 2, 2**64 - 2, 2**64 - 1]

# How each rule can be broken. 25 and 26 go by where the push is.
WAYS = {
    29: ("count",), 15: ("right rate",), 22: ("rate",), 9: ("rate 0",), 12: ("right length",), 10: ("length 1", "length 0 and data", "length 0 and the mark"),
    13: (*(f"length {n}" for n in LONG), "one too long"), 11: ("data longer", "data shorter", "no data"), 23: ("coefficients",),
    24: ("no room",), 14: ("short buffer", "no buffer"),
}
RIGHT_WAYS = {11: ("right data longer", "right data shorter"), 23: ("right coefficients",)}  # in stereo
COUNT_WAYS = {29: ("count 0", "count 3")}  # of a push that breaks no rule after 29
NUMBERS = {way: number for ways in (WAYS, RIGHT_WAYS, COUNT_WAYS) for number, names in ways.items() for way in names}
CHANGED = (29, 10, 13, 24, 12, 11, 22, 9, 15, 23, 14)  # in this order, so that none undoes another


def with_data(side, data):
    """With these bytes, or one more where it has them."""
    return replace(side, data=data if data != side.data else data + b"\0")


def other_side(name, side):
    """A side on which a rule is broken."""
    if name == "data longer":
        return with_data(side, side.data + b"\0")
    if name == "data shorter":
        return with_data(side, side.data[:-1])
    if name == "no data":
        return with_data(side, b"")
    if name == "coefficients":
        return replace(side, coefficients=side.coefficients[:15] + (side.coefficients[15] ^ 1,))
    if name == "rate":
        return replace(side, rate=side.rate + 1)
    if name == "rate 0":
        return replace(side, rate=0)
    if name == "length":
        return resized(side, side.length - 2 if side.length > 3 else side.length + 2)
    raise ValueError(name)


def changed(name, one, loader):
    """The push with one more rule broken."""
    if name.startswith("right "):
        return replace(one, right=other_side(name[6:], one.right))
    if name == "count":
        return replace(one, channels=3 - one.channels)
    if name.startswith("count "):
        return replace(one, channels=int(name[6:]))
    if name == "short buffer":
        return replace(one, lent=loader.whole([one.left, one.right][:one.channels], one.last) - 1)
    if name == "no buffer":
        return replace(one, lent=0)
    if name in ("rate", "rate 0"):
        return replace(one, left=other_side(name, one.left), right=other_side(name, one.right))
    if name == "length 0 and data":
        return replace(one, left=replace(one.left, length=0, data=b"\x5a" * 3), right=replace(one.right, length=0, data=b""))
    if name == "length 0 and the mark":
        return replace(one, left=resized(one.left, 0), right=resized(one.right, 0), last=True)
    longer = {"one too long": 131073 if one.channels == 1 else 65537, "no room": max(2, 2 * (loader.slot - loader.at - 32) + 2)}
    if name in longer or name.startswith("length "):
        length = longer[name] if name in longer else int(name[7:])
        return replace(one, left=resized(one.left, length), right=resized(one.right, length))
    return replace(one, left=other_side(name, one.left))


def refused_push(names, one, loader):
    """The push with a rule broken in each of these ways."""
    for name in sorted(names, key=lambda name: CHANGED.index(NUMBERS[name])):
        one = changed(name, one, loader)
    rules = broken(loader.push_order(*one.arguments()))
    if not rules or not {NUMBERS[name] for name in names} <= {*rules}:
        raise Unbroken(f"{names} break {rules}")
    return one


def ways(number, numbers, channels):
    """The ways to break a rule in a push that breaks these, in a loading of so many channels."""
    stereo = channels == 2 and 29 not in numbers
    made = WAYS[number] + (RIGHT_WAYS.get(number, ()) if stereo else ()) + (COUNT_WAYS.get(number, ()) if {*numbers} <= {26, 29, 25} else ())
    if number == 11 and 10 in numbers:
        return tuple(way for way in made if way != "no data")  # length 0 and no data may be no rule broken
    return tuple(way for way in made if "longer" in way) if number == 11 and 24 in numbers else made


# ---- Empty pushes

def empty_push(channels, first, draw):
    """Of length 0, without data and mark; the rates and coefficients are by lot those of the first block's sides or others, the lent buffer is any, in mono the
    right side too, and now and then the channel count is another."""
    def side(own):
        rate = draw.choice((own.rate, 0, 5, 4294967295))
        coefficients = draw.choice((own.coefficients, tuple(draw.randrange(-32768, 32768) for _ in range(16))))
        return Side(rate, 0, coefficients, draw.randrange(65536), tuple(draw.randrange(-32768 * (i > 0), 32768) for i in range(3)), b"")

    left, right = (side(own) for own in first)
    if channels == 1 and draw.random() < 0.5:
        right = replace(right, length=draw.choice((1, 16, 2**64 - 1)), data=draw.randbytes(3))
    many = channels if draw.random() < 0.9 else draw.choice((0, 3 - channels, 3))
    return Push(many, left, right, False, draw.choice((LENT, 0, 31)))
