"""Documents 01 and 02 in Python, as far as `cut` and the comparison with the Rust need them: the loading calls, opening and the listing, and every moment.

Written from the documents' sentences alone and as plainly as they go: nothing here is taken from the Rattle code.
"""
import struct

END = 4294967295
NONE = "-"


def up(n):
    """P(n)"""
    return (n + 31) // 32 * 32


def samples(n):
    """Samples for n addresses, ADPCM"""
    if n % 16 < 2:
        n = n - n % 16 + 2
    return n - 2 * (n // 16 + 1)


def bytes_for(n):
    """Bytes for n addresses, ADPCM"""
    return (n + 1) // 2


class Refused(Exception):
    pass


def first_due(*tests):
    for number, due in tests:
        if due:
            raise Refused(number)


# ---- Loading

class Side:
    def __init__(self, rate, length, gain, context, coefficients, data):
        self.rate, self.length, self.gain, self.context, self.coefficients, self.data = rate, length, gain, context, coefficients, data


NO_SIDE = Side(0, 0, 0, (0, 0, 0), (0,) * 16, b"")
POINT, LOOP, RANGE = range(3)
DISABLED, ENABLED, AUTO = range(3)


def is_empty(channels, sides, last):
    """A push of length 0 in every channel, with no data and without the last mark (document 02, Card 2)"""
    return not last and all(s.length == 0 and s.data == b"" for s in sides[:channels])


def begin_order(slot, channels, lent):
    return (3, channels not in (1, 2)), (7, slot > 16777216 or slot < 192), (14, lent < 1)


class Loader:
    """The calls. Each gives its writes as pairs of an offset and bytes, or raises Refused. Its order has each number, and whether that rule is broken."""

    def __init__(self, slot, channels, mode, lent):
        first_due(*begin_order(slot, channels, lent))
        self.slot, self.channels, self.mode = slot, channels, mode
        self.cues, self.left, self.blocks, self.finished = [], None, [], False
        self.ended, self.base, self.at, self.id, self.loop, self.sum = False, 0, 128, 1, None, 0
        self.begun = [(15, b"\0")]

    def has(self, start, kind, length, name):
        """An equal cue"""
        return (start, kind, length if kind == RANGE else 0, name) in self.cues

    def cue_order(self, start, kind, length, name):
        full = len(self.cues) == 128 and not self.has(start, kind, length, name)
        return (21, self.blocks != []), (8, start > 2147483647 or (kind == RANGE and length == 0)), (20, full)

    def cue(self, start, kind, length, name):
        first_due(*self.cue_order(start, kind, length, name))
        if not self.has(start, kind, length, name):
            self.cues.append((start, kind, length if kind == RANGE else 0, name))
            self.cues.sort()
        return []

    def taken(self, length, last):
        """The cues that a block of this length takes"""
        waiting = self.waiting if self.blocks else self.cues
        return [c for c in waiting if last or c[0] < self.base + samples(length)]

    def whole(self, used, last):
        """How many bytes a block with these sides has"""
        points = sum(c[1] != LOOP for s in used[:1] for c in self.taken(s.length, last))
        return 32 + up(8 * points) + sum(up(len(s.data)) for s in used)

    def push_order(self, channels, sides, last, lent):
        used, one = sides[:channels], sides[0]
        limit = 65536 if channels == 1 else 32768
        first = self.blocks[0] if self.blocks else used
        whole = self.whole(used, last)
        state = (26, self.ended), (29, channels != self.channels)
        return state if is_empty(channels, sides, last) else state + (
            (25, len(self.blocks) == 512),
            (15, any(s.rate != one.rate for s in used)),
            (22, self.blocks != [] and one.rate != first[0].rate),
            (9, one.rate == 0),
            (12, any(s.length != one.length for s in used)),
            (10, one.length < 2),
            (13, bytes_for(one.length) > limit),
            (11, any(len(s.data) != bytes_for(s.length) for s in used)),
            (23, any(s.coefficients != f.coefficients for s, f in zip(used, first))),
            (24, self.at + whole > self.slot),
            (14, lent < whole))

    def push(self, channels, sides, last, lent):
        first_due(*self.push_order(channels, sides, last, lent))
        if is_empty(channels, sides, last):
            return []
        used = sides[:channels]
        one = used[0]
        if not self.blocks:
            self.waiting = list(self.cues)
        end = self.base + samples(one.length)
        taken = self.taken(one.length, last)
        block_loops = any(c[1] == LOOP for c in taken)
        if self.mode == DISABLED:
            block_loops = False
        elif self.mode == ENABLED and not any(c[1] == LOOP for c in self.cues):
            block_loops = last or end > 0
        table = [c for c in taken if c[1] != LOOP]
        size = sum(up(len(s.data)) for s in used)
        whole = self.whole(used, last)
        loop = self.loop if self.loop is not None else (self.at if block_loops else None)
        following = (END if loop is None else loop) if last else self.at + whole
        contexts = [s.context for s in used] + [(0, 0, 0)]
        head = struct.pack(">III", size, one.length - 1, following)
        head += b"".join(struct.pack(">Hhh2x", *c) for c in contexts[:2]) + struct.pack(">B3x", len(table))
        entries = [(c[0] - self.base, self.id + i) for i, c in enumerate(table)]
        entries += [(-1, 0)] * (-len(table) % 4)
        body = head + b"".join(struct.pack(">iI", *e) for e in entries)
        body += b"".join(s.data.ljust(up(len(s.data)), b"\0") for s in used)
        assert len(body) == whole
        write = [(self.at, body)]
        self.waiting = [c for c in self.waiting if c not in taken]
        self.loop, self.base, self.at, self.id = loop, end, self.at + whole, self.id + len(table)
        self.sum, self.ended = self.sum + one.length, last
        self.blocks.append(used)
        return write

    def finish_order(self, lent):
        return (26, self.finished), (27, self.blocks == []), (28, not self.ended), (14, lent < 128)

    def finish(self, lent):
        first_due(*self.finish_order(lent))
        header = b" HALPST\0" + struct.pack(">II", self.blocks[0][0].rate, self.channels)
        for side in self.blocks[0]:
            header += struct.pack(">HHIII16hHHhh", 1, 0, 2, self.sum - 1, 2, *side.coefficients, side.gain, *side.context)
        header = header.ljust(128, b"\0")
        self.finished = True
        return [(0, header[:15]), (16, header[16:]), (15, header[15:16])]


# ---- Opening and the listing

def opening(slot):
    """rate, count, formats, offsets and loop start, or Refused"""
    at = 0

    def read(form):
        nonlocal at
        n = struct.calcsize(form)
        if at + n > len(slot):
            raise Refused(1)
        (value,) = struct.unpack_from(form, slot, at)
        at += n
        return value

    first_due((7, len(slot) > 16777216))
    if read("8s") != b" HALPST\0":
        raise Refused(2)
    rate, count = read(">I"), read(">I")
    first_due((3, count not in (1, 2)))
    formats = []
    for _ in range(2):
        read(">H")
        formats.append(read(">H"))
        first_due((4, formats[-1] not in (0, 10, 25)))
        for form in (">I", ">I", ">I", *[">h"] * 16, ">H", ">H", ">h", ">h"):
            read(form)
    offsets, here = [], 128
    while True:
        first_due((5, len(offsets) == 512))
        offsets.append(here)
        following = block_header(slot, here)[2]
        if following == END:
            return rate, count, formats, offsets, None
        if following in offsets:
            return rate, count, formats, offsets, offsets.index(following)
        here = following


def block_header(slot, at):
    """length, cue count, next offset and cues, filled ones left out"""
    if at + 32 > len(slot):
        raise Refused(1)
    _, end, following = struct.unpack_from(">III", slot, at)
    count = slot[at + 28]
    if at + 32 + up(8 * count) > len(slot):
        raise Refused(1)
    cues = [struct.unpack_from(">iI", slot, at + 32 + 8 * i) for i in range(count)]
    return end + 1, count, following, cues


def samples_in(form, n):
    return samples(n) if form == 0 else n


def listing(slot):
    try:
        first_due((7, len(slot) > 65536))
        rate, count, formats, offsets, loop = opening(slot)
    except Refused as due:
        return f"STOP{due.args[0]:11}\n"
    out = f"HEAD{rate:11}{count:11}{len(offsets):11}{NONE if loop is None else loop:>11}\n"
    cues, base = "", 0
    for i, at in enumerate(offsets):
        length, n, _, points = block_header(slot, at)
        out += f"BLCK{i:11}{at:11}{length:11}{samples_in(formats[0], length):11}{n:11}\n"
        if i == loop:
            cues += f"LOOP{base:21}\n"
        for index, name in points:
            cues += f"CUEP{(base + index) % 2 ** 64:21}{name:11}\n"
        base += samples_in(formats[0], length)
    return out + cues


# ---- The script and the answer

KINDS = {"CUEP": POINT, "LOOP": LOOP, "CUER": RANGE}
U64, U32, U16 = 2 ** 64, 2 ** 32, 2 ** 16


def number(word, limit):
    if not word.isascii() or not word.isdigit() or int(word) >= limit:
        raise ValueError
    return int(word)


def signed(word):
    value = -number(word[1:], 32769) if word.startswith("-") else number(word, 32768)
    return value


def data(word):
    if word == "-":
        return b""
    if any(c not in "0123456789abcdefABCDEF" for c in word) or len(word) % 2:
        raise ValueError
    return bytes.fromhex(word)


def parse(text):
    """The calls of a script as lists; or the number of the line that goes wrong"""
    calls, due, begun, n = [], 0, False, 0
    lines = text.split("\n")
    if lines[-1] == "":
        lines.pop()
    for n, line in enumerate(lines, 1):
        words = line.split("#")[0].replace("\t", " ").replace("\r", " ").split(" ")
        words = [w for w in words if w]
        if not words:
            continue
        try:
            kind, rest = words[0], words[1:]
            if (kind == "CHAN") != (due > 0):
                raise ValueError
            if kind == "CHAN":
                rate, length, gain, ps, s0, s1, *c, hexes = rest
                if len(c) != 16:
                    raise ValueError
                side = Side(number(rate, U32), number(length, U64), number(gain, U16),
                            (number(ps, U16), signed(s0), signed(s1)), tuple(signed(x) for x in c), data(hexes))
                calls[-1][2].append(side)
                due -= 1
                continue
            if kind == "LENT":
                (size,) = rest
                calls.append(["LENT", number(size, U64)])
                continue
            if (kind == "BEGN") == begun:
                raise ValueError
            if kind == "BEGN":
                channels, mode = rest
                calls.append(["BEGN", number(channels, U64), number(mode, 3)])
                begun = True
            elif kind == "PUSH":
                channels, last = rest
                due = number(channels, U64)
                calls.append(["PUSH", due, [], number(last, 2)])
            elif kind == "CUER":
                start, length, name = rest
                calls.append(["CUE", number(start, U64), RANGE, number(length, U64), number(name, U32)])
            elif kind in KINDS:
                start, name = rest
                calls.append(["CUE", number(start, U64), KINDS[kind], 0, number(name, U32)])
            elif kind == "FINI" and not rest:
                calls.append(["FINI"])
            else:
                raise ValueError
        except ValueError:
            return n
    if due or not begun:
        return n + 1
    return calls


def answer(earlier, text, moment=None):
    """What `cut` prints; None where the moment is past the last"""
    calls = parse(text)
    if isinstance(calls, int):
        return f"LINE{calls:11}\n"
    out, writes, loader, lent, at = "", [], None, 65536, 0
    for kind, *words in calls:
        if kind == "LENT":
            lent = words[0]
            continue
        length = ""
        try:
            if kind == "BEGN":
                loader = Loader(len(earlier) if len(earlier) <= 65536 else 16777217, *words, lent)
                handed = loader.begun
            elif kind == "CUE":
                handed = loader.cue(*words)
            elif kind == "PUSH":
                channels, sides, last = words
                handed = loader.push(channels, (sides + [NO_SIDE, NO_SIDE])[:max(channels, 2)], last == 1, lent)
            else:
                handed = loader.finish(lent)
                length = f"{loader.at:11}"
        except Refused as due:
            out += f"STOP{at:11}{due.args[0]:11}\n"
            if kind == "BEGN":
                return out
        else:
            out += f"DONE{at:11}{length}\n"
            for offset, data_ in handed:
                out += f"WRIT{at:11}{offset:11}{len(data_):11}\n"
            writes += handed
        at += 1
    slots = moments(earlier, writes)
    if moment is not None:
        for n, slot in enumerate(slots):
            if n == moment:
                return listing(slot)
        return None
    return out + "".join(runs(slots))


def moments(earlier, writes):
    """The slot at each moment"""
    slot = bytearray(earlier)
    yield bytes(slot)
    for offset, data_ in writes:
        for i, byte in enumerate(data_):
            slot[offset + i] = byte
            yield bytes(slot)


def runs(slots):
    first, last, shown = 0, 0, None
    for n, slot in enumerate(slots):
        here = listing(slot)
        if shown is not None and here != shown:
            yield f"TIME{first:11}{last:11}\n" + shown
            first = n
        shown, last = here, n
    yield f"TIME{first:11}{last:11}\n" + shown
