"""Loadings to compare: lists of calls over a slot's earlier content, with calls among them that must be refused.

What is accepted is given to the Rust (`oracle load`): the slot must then begin with its file, and go on with the earlier content. A refused call has the
number that is due by document 01 (tests/cut/model.py). A refused push is given to the Rust too, after the blocks accepted before it, whichever and however
many rules it breaks; so is a refused cue, and a stream without a block (27). The Rust must answer by its own order, and where its answer is not document
01's the difference must be one that is listed (orders.py). Not given to it are begin, 21, 28, and a push of two channels in mono: it has no such calls.

Empty pushes (document 02, Card 2) stand among the calls: the file is still the Rust's without them. Each is given to the Rust too, as one more block: it must
answer by its own order, and what it says beside our silence is D9.

A step is a call or a part of the slot; numbers are u32, big-endian. 0: 1 content, 2 begin, 3 cue, 4 push, 5 finish, 6 the slot must have these bytes.
4: the number of the refusal, or 0. 8: the slot's length; of content and bytes their offset. 28: of how many bytes the lent buffer is. Then, by kind:
  content, bytes  12 how many, 32 the bytes
  begin           12 channels, 16 mode (0 Disabled, 1 Enabled, 2 Auto)
  cue             12 kind (0 Point, 1 Loop, 2 Range), 16 start (u64), 32 name, 36 the range's length (u64)
  push            12 channels, 16 last, 20 and 24 how many bytes of data, 32 the left side: rate, length (u64), 16 coefficients, gain and context (52
                  bytes), and the data; then the right side, if there are two channels or the push is empty
  finish          12 the finished length
"""
import itertools
import random
import struct
from dataclasses import dataclass, replace

from orders import LISTED, Loader, begin_order, broken, first_of, is_empty, rust_cue, rust_push, up
from pushes import LENT, Push, empty_push, refused_push

MODES = ("disabled", "enabled", "auto")
KINDS = ("point", "loop", "range")
NAMES = ("", "content", "begin", "cue", "push", "finish", "bytes")
CONTENT, BEGIN, CUE, PUSH, FINISH, BYTES = range(1, 7)
CUE_LIMIT, BLOCK_LIMIT = 128, 512
EMPTY = ("empty",)


@dataclass(frozen=True)
class Loading:
    channels: int
    mode: int
    cues: tuple  # start, kind, range length, name
    blocks: tuple  # pairs of sides
    pushes: int  # how many blocks are pushed; if all are, the last is marked and finish called
    spare: int  # how many bytes the slot has beyond the last block that is pushed
    earlier: str  # "noise", "file" or "zeros"
    # where and what: (place, names of WAYS or EMPTY) before push `place`, after the last ("last") or after finish ("finished"); or (call, ())
    refused: tuple = ()
    seed: int = 0  # of the noise and of the empty pushes
    empty: float = 0  # how often an empty push stands before a call: 1 is before each, and after the last


class Disagreement(Exception):
    """The Rust's answer is none that document 01 and docs/DIFFERENCES.md let it have."""


# ---- The Rust's answers

def description(loading, blocks, cues=()):
    """A right side that is None is not there."""
    lines = [f"mode {MODES[loading.mode]}", f"channels {loading.channels}"]
    for start, kind, length, name in cues:
        lines.append(f"cue {KINDS[kind]}{f':{length}' if kind == 2 else ''} {start} {name}")
    for left, right in blocks:
        lines.append(left.described("left"))
        if loading.channels == 2 and right is not None:
            lines.append(right.described("right"))
    return ";".join(lines)


def whole_file(oracle, loading):
    answer = oracle.ask("load", description(loading, loading.blocks, loading.cues))[0]
    if not answer.startswith("OK "):
        raise Disagreement(f"the Rust ends with {answer.split()[0]}")
    return bytes.fromhex(answer[3:])


def ending(oracle, loading, blocks, cues=()):
    """How the Rust ends: 0 if it accepts all, else the number of document 01 for its error, of the two that InconsistentSampleRate has (D16) 15 where the
    sides of the last block differ; or PANIC."""
    word = oracle.ask("load", description(loading, blocks, cues))[0].split()[0]
    if word == "InconsistentSampleRate":
        left, right = blocks[-1]
        return 15 if loading.channels == 2 and left.rate != right.rate else 22
    return 0 if word == "OK" else int(word) if word.isdigit() else word


def held(call, due, theirs, own):
    """Holds the Rust's answer to its own order, and its difference from document 01's number to the list."""
    if theirs != first_of(own):
        raise Disagreement(f"{call}: the Rust answers {theirs} where its order has {first_of(own)}")
    if theirs != due and (due, theirs) not in LISTED:
        raise Disagreement(f"{call}: the Rust answers {theirs} where {due} is due, and docs/DIFFERENCES.md does not list it")


def block_ends(file, count):
    """Where each block ends, by its header in the Rust's file."""
    ends, at = [], 128
    for _ in range(count):
        size, cues = struct.unpack_from(">I", file, at)[0], file[at + 28]
        at += 32 + up(8 * cues) + size
        ends.append(at)
    return ends


# ---- Steps

def step(kind, due, at, *parts, lent=LENT):
    """parts are an offset and the bytes there."""
    made = bytearray(struct.pack(">III16xI", kind, due, at, lent))
    for where, data in parts:
        made = made.ljust(where, b"\0")
        made[where:where + len(data)] = data
    return bytes(made)


def words(*numbers):
    return struct.pack(f">{len(numbers)}I", *numbers)


def spread(kind, at, data):
    return step(kind, 0, at, (12, words(len(data))), (32, data))


def bytes_steps(slot, ends):
    """What the slot must hold, in parts so that a step's offset tells what is not the same."""
    places = {0, 16, 72, 128, *ends[-1:], len(slot)}
    for start, end in list(zip([128] + ends, ends))[:8]:
        places |= {start, start + 32, end}
    places = sorted(places)
    return [spread(BYTES, at, slot[at:to]) for at, to in zip(places, places[1:])]


def part_at(at, ends):
    """The name of such a part."""
    if at < 128:
        return {0: "start of the header", 16: "left channel", 72: "right channel"}[at]
    if at in ends[-1:]:
        return "bytes beyond the file"
    return "block header" if at in [128] + ends else "cues and data"


# ---- Calls, each with the number due

@dataclass(frozen=True)
class Refused:
    """A call that was refused: of which channel count, whether a block was pushed before, the rules that it breaks, and the Rust's answer, if it has one."""
    call: str
    channels: int
    later: bool
    rules: tuple
    theirs: object = None


class Calls:
    """Makes the steps. The model makes the calls too, and says what is due."""

    def __init__(self, oracle, loading, slot):
        self.oracle, self.loading, self.slot = oracle, loading, slot
        self.made, self.refused, self.loader = [], [], None
        self.empty, self.draw = [], random.Random(loading.seed)  # the Rust's answers to the empty pushes that are accepted

    def note(self, call, order, theirs=None):
        if first_of(order):
            later = self.loader is not None and self.loader.blocks != []
            self.refused.append(Refused(call, self.loading.channels, later, broken(order), theirs))

    def begin(self, slot, channels, mode, lent=LENT):
        order = begin_order(slot, channels, lent)
        self.note("begin", order)
        if not first_of(order):
            self.loader = Loader(slot, channels, mode, lent)
        self.made.append(step(BEGIN, first_of(order), slot, (12, words(channels, mode)), lent=lent))

    def nothing(self):
        """Now and then an empty push."""
        if self.draw.random() < self.loading.empty:
            self.pushed(empty_push(self.loading.channels, self.loading.blocks[0], self.draw))

    def cue(self, start, kind, length, name):
        self.nothing()
        order = self.loader.cue_order(start, kind, length, name)
        due, theirs = first_of(order), None
        if due == 0:
            self.loader.cue(start, kind, length, name)
        elif due != 21:
            cues = (*self.loader.cues, (start, kind, length, name))
            theirs = ending(self.oracle, self.loading, self.loading.blocks[:1], cues)
            held("cue", due, theirs, rust_cue(kind, length))
        self.note("cue", order, theirs)
        parts = (12, words(kind)), (16, struct.pack(">Q", start)), (32, words(name) + struct.pack(">Q", length))
        self.made.append(step(CUE, due, self.slot, *parts))

    def push(self, one):
        self.nothing()
        self.pushed(one)

    def pushed(self, one):
        order = self.loader.push_order(*one.arguments())
        empty = is_empty(*one.arguments()[:3])
        due, theirs = first_of(order), None
        if (due or empty) and one.channels in (1, self.loading.channels):
            theirs = self.asked(one, due)
        if due == 0:
            self.loader.push(*one.arguments())
            self.empty += [theirs] * empty
        self.note("push", order, theirs)
        sides = one.left.packed() + one.left.data
        sizes = len(one.left.data), 0
        if one.channels == 2 or empty:
            sides += one.right.packed() + one.right.data
            sizes = len(one.left.data), len(one.right.data)
        self.made.append(step(PUSH, due, self.slot, (12, words(one.channels, one.last, *sizes)), (32, sides), lent=one.lent))

    def asked(self, one, due):
        """The Rust's answer to a push that is refused or empty, after the blocks before it."""
        channels = self.loading.channels
        right = one.right if one.channels == channels else None
        first = tuple(self.loader.blocks[0]) if self.loader.blocks else ()
        before = self.loading.blocks[:len(self.loader.blocks)]
        theirs = ending(self.oracle, self.loading, (*before, (one.left, right)))
        held("push", due, theirs, rust_push(first, channels, one.left, right))
        return theirs

    def finish(self, lent=LENT):
        self.nothing()
        order = self.loader.finish_order(lent)
        due = first_of(order)
        if due == 0:
            self.loader.finish(lent)
        if due == 27:
            held("finish", due, ending(self.oracle, self.loading, ()), ((27, True),))
        self.note("finish", order)
        self.made.append(step(FINISH, due, self.slot, (12, words(0 if due else self.loader.at)), lent=lent))


# ---- The steps of a loading

def refused_at(loading, place):
    return [names for where, names in loading.refused if where == place]


def refused_pushes(calls, place, one):
    """Also an empty push, where it is named."""
    for names in refused_at(calls.loading, place):
        if names == EMPTY:
            calls.pushed(empty_push(calls.loading.channels, calls.loading.blocks[0], calls.draw))
        else:
            calls.push(refused_push(names, one, calls.loader))


def refused_cues(calls, others=()):
    """Each broken rule of a cue, two at once, and an equal cue."""
    for one in ((2147483648, 0, 0, 1), (5, 2, 0, 1), (2**64 - 1, 2, 0, 1), *calls.loader.cues[:1], *others):
        calls.cue(*one)


def refused_begins(calls):
    """Each broken rule of begin, two and three at once."""
    slot, channels = calls.slot, calls.loading.channels
    for one in itertools.product((slot, 191, 16777217), (channels, 0, 3), (2,), (LENT, 0)):
        if one != (slot, channels, 2, LENT):
            calls.begin(*one)


def refused_finishes(calls):
    for lent in (LENT, 127, 0):
        if first_of(calls.loader.finish_order(lent)):
            calls.finish(lent)


NEW_CUE = (7, 0, 0, 4294967295)


def make_cues(calls):
    for i, one in enumerate(calls.loading.cues):
        calls.cue(*one)
        if refused_at(calls.loading, "cue") and i % 3 == 0:
            refused_cues(calls)
    if len(calls.loader.cues) == CUE_LIMIT:
        # A full table takes an equal cue and refuses any other; a bad one gets its own number first.
        refused_cues(calls, [NEW_CUE])


def make_pushes(calls, starts):
    loading = calls.loading
    for i, (left, right) in enumerate(loading.blocks[:loading.pushes + 1]):
        one = Push(loading.channels, left, right, i == len(loading.blocks) - 1)
        refused_pushes(calls, i, one)
        if i < loading.pushes:
            # The lent buffer is now and then as long as what is handed out.
            calls.push(replace(one, lent=starts[i + 1] - starts[i]) if i % 2 else one)
            if i == 0:
                refused_cues(calls, [NEW_CUE])
            if i < 3 and not one.last:
                refused_finishes(calls)


def make_end(calls):
    one = Push(calls.loading.channels, *calls.loading.blocks[-1], True)
    refused_pushes(calls, "last", one)
    refused_finishes(calls)
    calls.finish(128)
    if refused_at(calls.loading, "finish"):
        refused_finishes(calls)
        refused_cues(calls, [NEW_CUE])
    refused_pushes(calls, "finished", replace(one, last=False))


def earlier_content(loading, slot, file):
    if loading.earlier == "zeros":
        return bytes(slot)
    if loading.earlier == "file":
        return file.ljust(slot, b"\xa5")[:slot]
    return random.Random(loading.seed).randbytes(slot)


@dataclass(frozen=True)
class Made:
    steps: list
    file: bytes  # the finished file, if there is one
    ends: list  # where the blocks end
    refused: list
    empty: list  # the Rust's answers to the empty pushes that are accepted


def made_of(oracle, loading):
    file = whole_file(oracle, loading)
    starts = [128] + block_ends(file, len(loading.blocks))
    end, ends = starts[loading.pushes], starts[1:loading.pushes + 1]
    slot = max(192, end + loading.spare)
    earlier = earlier_content(loading, slot, file)
    calls = Calls(oracle, loading, slot)
    if loading.earlier != "zeros":
        calls.made.append(spread(CONTENT, 0, earlier))
    if refused_at(loading, "begin"):
        refused_begins(calls)
        calls.made += bytes_steps(earlier, [])
    calls.begin(slot, loading.channels, loading.mode)
    refused_finishes(calls)
    make_cues(calls)
    make_pushes(calls, starts)
    if loading.pushes == len(loading.blocks):
        make_end(calls)
        calls.nothing()
        return Made(calls.made + bytes_steps(file + earlier[len(file):], ends), file, ends, calls.refused, calls.empty)
    # No finish: a header of earlier content but for byte 15, then the Rust's blocks up to the last pushed.
    refused_finishes(calls)
    calls.nothing()
    slot_now = earlier[:15] + b"\0" + earlier[16:128] + file[128:end] + earlier[end:]
    return Made(calls.made + bytes_steps(slot_now, ends), b"", ends, calls.refused, calls.empty)
