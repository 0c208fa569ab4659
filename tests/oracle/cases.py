"""Cases of the program `replay`: a slot, a loading, the arguments of an estimate or a slot to decode, with the answers that they must have.

A case has a kind (1 slot, 2 loading, 3 estimate, 4 decoding), a length and so many bytes; numbers are u32, big-endian, two of them for a u64.
  slot      the slot's length; how many bytes follow, the others being 0, and these; the listing's length and the listing; then, if the slot opens, its two
            channels (60 bytes each: looping, format, loop, end and current address, coefficients, gain, context), and for each channel and position asked for
            these two, the answer (76 bytes: of the addresses remaining the refusal or 0, and the addresses; of the block read the refusal, 0 for a block or
            4,294,967,295 for the end, by how much the position moved on, rate, format, length, coefficients, gain, context), the data's length and the data
  loading   steps, each with its length before it (loadings.py says what they hold)
  estimate  the refusal or 0; how many blocks (1, 2, 512 or 513), the length of each (u64), of the second where there are 2 (u64), channels, p; the estimate
  decoding  the slot's length; how many bytes follow, the others being 0, and these; then the calls one after the other (36 bytes: channel, position and
            context of the decoder that goes in, how many places are lent; the refusal, 0 for samples or 4,294,967,295 for the end, position and context of the
            decoder that comes out, how many samples) and after each its samples, 16 bits each

The answers are the Rust's, and document 01's where docs/DIFFERENCES.md has a difference: D2 and D3 are in the oracle's `key`; D5: a channel not below
the count is refused with 6; D7: the Rust gives no coefficients, gain and context for a PCM block, so they are those of its channel and of its block's
header; D9a: positions past the end. In mono the second channel is zeros. The estimate is not in the Rust: its answers are by document 01's formula.
In decoding D26: where the Rust's sum wraps, the samples are by document 02's text (decodings.py); D27: a refusal leaves the position; D28: a PCM channel is
refused with 30. The Rust lends no places: 14 is document 02's alone. The context that goes in is drawn by lot, since no answer may go by it.
"""
import itertools
import os
import random
import re
import struct
import subprocess
from collections import Counter

from decodings import ADPCM, HIGH, LOW, decoded, in_32_bits
from inputs import END
from loadings import NAMES, Disagreement, made_of
from orders import LISTED, bytes_for, up
from pushes import Unbroken

SLOT, LOADING, ESTIMATE, DECODING = 1, 2, 3, 4
MOST = 690000  # of what the program takes
PLACES = 8192  # that the program can lend


def case(kind, body):
    return struct.pack(">II", kind, len(body)) + body


# ---- Slots

def numbers(text):
    return [int(n) for n in text.split(",")]


def info(coefficients, gain, context):
    return struct.pack(">16hHHhh", *coefficients, gain, *context)


def channel_record(line):
    """A channel as recorded, and its coefficients and gain."""
    m = re.fullmatch(r"CHAN \d looping=(\d) format=(\d+) loop=(\d+) end=(\d+) cur=(\d+) coef=(\S+) gain=(\d+) ctx=(\S+)", line)
    coefficients, gain = numbers(m[6]), int(m[7])
    return struct.pack(">5I", *map(int, m.group(1, 2, 3, 4, 5))) + info(coefficients, gain, numbers(m[8])), (coefficients, gain)


def answer(channel, position, left, reply, moved, rate=0, number=0, length=0, given=((0,) * 16, 0), context=(0, 0, 0), data=b""):
    start = struct.pack(">IIIQIIIIQ", channel, position, 0, left, reply, moved, rate, number, length)
    return start + info(*given, context) + struct.pack(">I", len(data)) + data


def block_answer(line, left, given, context):
    m = re.fullmatch(r"READ (\d) (\d+) ch=1 rate=(\d+) format=(\d+) len=(\d+)(?: coef=(\S+) gain=(\d+) ctx=(\S+))? data=(\S+)", line)
    data = b"" if m[9] == "-" else bytes.fromhex(m[9])
    if m[6]:
        given, context = (numbers(m[6]), int(m[7])), numbers(m[8])
    return answer(*map(int, m.group(1, 2)), left, 0, 1, *map(int, m.group(3, 4, 5)), given, context, data)


def reads(lines, counts):
    """What is recorded of the Rust's `read`: the channels, and the answers."""
    channels, given, made, sums = [], [], [], {}
    left, context = 0, None
    for line in lines:
        word, *rest = line.split()
        if word == "CHAN":
            made_channel, carried = channel_record(line)
            channels.append(made_channel)
            given.append(carried)
        elif word == "LEFT":
            left = sums[int(rest[1])] = int(rest[2])
        elif word == "CTXT":
            context = numbers(rest[2])
        elif word == "DONE":
            c, position = map(int, rest)
            made += [answer(c, position, 0, END, 0), answer(c, position + 2, 0, END, 0)]
        elif rest[2] == "STOP":
            made.append(answer(int(rest[0]), int(rest[1]), left, int(rest[3]), 1))
            counts[f"block reads refused with {rest[3]}"] += 1
        else:
            made.append(block_answer(line, left, given[int(rest[0])], context))
            counts["blocks read"] += 1
    for c in range(len(channels), 3):
        made.append(answer(c, 0, sums[0], 6, 0))
    counts["addresses remaining"] += len(made)
    return b"".join(channels).ljust(120, b"\0"), made


def slot_case(oracle, slot, counts, most=5000):
    """The answers in the middle are left out where there are more than so many."""
    listing = oracle.ask("key", slot)
    text = "".join(line + "\n" for line in listing).encode()
    stored = slot.rstrip(b"\0")
    body = struct.pack(">II", len(slot), len(stored)) + stored + struct.pack(">I", len(text)) + text
    if listing[0].startswith("STOP"):
        counts[f"refused with {listing[0].split()[1]}"] += 1
        return case(SLOT, body)
    counts["open"] += 1
    counts["blocks listed"] += sum(line.startswith("BLCK") for line in listing)
    counts["cue calls"] += 1 + sum(line.startswith(("LOOP", "CUEP")) for line in listing)
    channels, answers = reads(oracle.ask("read", slot), counts)
    if len(answers) > most:
        answers[most // 2:-most // 2] = []
    return case(SLOT, body + channels + b"".join(answers))


def answer_at(made, number):
    """What is asked and recorded in the answer of this number."""
    at = 16 + struct.unpack_from(">I", made, 12)[0]
    at += 4 + struct.unpack_from(">I", made, at)[0] + 120
    for _ in range(number):
        at += 88 + struct.unpack_from(">I", made, at + 84)[0]
    channel, position, _, _, reply, _, _, number = struct.unpack_from(">IIIQIIII", made, at)
    return channel, position, {0: f"a block of format {number}", END: "the end"}.get(reply, f"refusal {reply}")


# ---- Loadings

class Counts(Counter):
    """How often a thing was met; and the pairs and triples of rules that were broken at once, the first of them being due, as orders.py tells them."""

    def __init__(self):
        super().__init__()
        self.together = set()

    def add(self, one):
        """A call that was refused."""
        due, *others = one.rules
        self[f"{one.call} refused with {due}"] += 1
        if one.theirs is not None:
            self[f"{one.call} given to the Rust"] += 1
            if one.theirs != due:
                theirs = f"where the Rust has {one.theirs}" if one.theirs else "that the Rust accepts"
                self[f"{one.call} with {due} {theirs} ({LISTED[due, one.theirs]})"] += 1
        if others:
            self[f"{one.call} that breaks {min(len(others) + 1, 3)}{' or more' if len(others) > 1 else ''} rules"] += 1
        where = (one.call, one.channels, one.later) if one.call == "push" else (one.call,)
        for count in (1, 2):
            self.together |= {(*where, due, *rest) for rest in itertools.combinations(others, count)}


def loading_case(oracle, loading, counts):
    made = made_of(oracle, loading)
    for one in made.steps:
        kind, due = struct.unpack_from(">II", one)
        if NAMES[kind] not in ("content", "bytes"):
            counts["calls"] += 1
            counts[f"{NAMES[kind]} accepted"] += due == 0
    for one in made.refused:
        counts.add(one)
    for theirs in made.empty:
        counts[f"empty push {f'where the Rust has {theirs}' if theirs else 'that the Rust writes as a block'} (D9)"] += 1
    counts["finished files"] += made.file != b""
    counts["bytes of finished files"] += len(made.file)
    return case(LOADING, b"".join(struct.pack(">I", len(one)) + one for one in made.steps))


# ---- The estimate

def estimate_order(lengths, channels):
    """Order: 3, 5, then per length 10, 13."""
    yield 3, channels not in (1, 2)
    yield 5, len(lengths) > 512
    for n in lengths:
        yield 10, n < 2
        yield 13, bytes_for(n) > 65536 // channels


def estimate_case(blocks, length, channels, p, other=None):
    lengths = [length] * blocks if other is None else [length, other]
    due = next((number for number, due in estimate_order(lengths, channels) if due), 0)
    told = 128 + sum(32 + channels * up(bytes_for(n)) for n in lengths) + 32 * p if due == 0 else 0
    return case(ESTIMATE, struct.pack(">IIQQIIQ", due, blocks, length, other or 0, channels, p, told))


def estimates():
    """At its limits, and with two and three rules broken at once."""
    most = 4294967295
    for blocks, length, channels, p in (
            (1, 2, 1, 0), (1, 16, 2, 1), (512, 2, 1, most), (512, 65536, 2, most), (512, 131072, 1, 128), (513, 2, 1, 0), (513, 2, 0, 0), (513, 2, 3, 0),
            (1, 0, 1, 0), (1, 1, 2, 0), (1, 131072, 1, 0), (1, 131073, 1, 0), (1, 65536, 2, 0), (1, 65537, 2, 0), (512, most, 1, most),
            (1, 2**62 + 2, 1, 0), (1, 2**63 + 2, 2, 0), (1, 2**64 - 1, 1, 0), (512, 2**62, 2, 0)):
        yield estimate_case(blocks, length, channels, p)
    for blocks, length, channels in itertools.product((1, 513), (0, 1, 131073, 2**62 + 2), (0, 1, 3)):
        yield estimate_case(blocks, length, channels, 0)
    for length, other in ((2, 16), (16, 131072), (0, 131073), (131073, 0), (1, 131073), (131073, 1), (2, 1), (2, 131073), (2, 2**62 + 2), (2**62 + 2, 0)):
        yield estimate_case(2, length, 1, 0, other)


# ---- Decoding

def read_blocks(lines, number):
    """The arguments of `decoded` for each block of a channel, None where the Rust refused to read it."""
    found = [re.fullmatch(r"READ \d+ \d+ (?:STOP 1|.* format=0 len=(\d+) coef=(\S+) gain=\d+ ctx=(\S+) data=(\S+))", line)
             for line in lines if line.startswith(f"READ {number} ")]
    return [m and m[1] and (numbers(m[2]), numbers(m[3]), int(m[1]), bytes.fromhex(m[4].strip("-"))) for m in found]


def read_lengths(lines, number):
    """The blocks' lengths: by how much the addresses remaining become fewer."""
    left = [int(line.split()[3]) for line in lines if line.startswith(f"LEFT {number} ")]
    return [here - after for here, after in itertools.pairwise(left)]


def rust_decodings(lines, number):
    """What the Rust's decoder gives of a channel, position by position: how it ends, or the samples, and the context after it."""
    found = [line.split(maxsplit=4) for line in lines if line.startswith(f"PCM {number} ")]
    return [(rest, tuple(numbers(after[6:]))) for _, _, _, after, rest in found]


def expected(blocks, rust, counts):
    """The answer due of each block of an ADPCM channel: the samples and the context after them, None where it is 1. The Rust must have it, but for D26."""
    made, standing = [], (0, 0, 0)
    for position, (arguments, (given, after)) in enumerate(zip(blocks + ["DONE"], rust, strict=True)):
        if arguments in (None, "DONE"):
            if (given, after) != ("STOP 1" if arguments is None else "DONE", standing):
                raise Disagreement(f"the Rust's decoder at position {position}: {given[:40]}")
            made += [None] * (arguments is None)
            continue
        samples, context, beyond = decoded(*arguments)
        wrapped = decoded(*arguments, in_32_bits) if beyond else (samples, context)
        if (given, after) != (f"len={len(samples)} data={','.join(map(str, wrapped[0]))}", wrapped[1]):
            raise Disagreement("the Rust's samples, or its context after them, and those by the card's text")
        counts["blocks in which the Rust's sum wraps (D26)"] += beyond
        counts["blocks decoded"] += 1
        counts["samples"] += len(samples)
        made.append((samples, context))
        standing = after
    return made


class Calls:
    """Decoding calls and their answers, as they are recorded."""

    def __init__(self, slot, counts):
        self.draw, self.counts, self.made = random.Random(slot), counts, []

    def add(self, channel, position, places, reply, samples=(), after=None, also=()):
        """A call; `also` are the numbers that would be due but for the reply."""
        before = (self.draw.randrange(65536), self.draw.randint(LOW, HIGH), self.draw.randint(LOW, HIGH))
        out = (position, *before) if after is None else (position + 1, *after)
        self.made.append(struct.pack(">IIHhhIIIHhhI", channel, position, *before, places, reply, *out, len(samples)) + struct.pack(f">{len(samples)}h", *samples))
        name = {0: "accepted", END: "at the end"}.get(reply, f"refused with {reply}")
        self.counts[f"calls {name}"] += 1
        for number in also:
            self.counts[f"calls {name} where {number} comes later"] += 1

    def past(self, end):
        """A position after the last block."""
        return self.draw.choice((end, end, end + 1, end + 2, END - 1))

    def adpcm(self, channel, blocks, lengths):
        for position, block in enumerate(blocks):
            if block is None:
                self.add(channel, position, 0, 1, also=(14,) if lengths[position] > 2 else ())
                self.add(channel, position, PLACES, 1)
                continue
            samples, after = block
            fewer = min(len(samples), PLACES + 1)
            if fewer:
                self.add(channel, position, fewer - self.draw.choice((1, 1, 1, fewer)), 14)
            if len(samples) <= PLACES:
                self.add(channel, position, min(len(samples) + self.draw.choice((0, 0, 1, 9)), PLACES), 0, samples, after)
        self.add(channel, len(blocks), 0, END)
        self.add(channel, self.past(len(blocks)), 3, END)

    def pcm(self, channel, reads):
        """`reads` has None where the Rust refuses to read the block."""
        for position, read in enumerate(reads):
            self.add(channel, position, 0, 30, also=(1,) if read is None else ())
        self.add(channel, self.past(len(reads)), 0, 30, also=("the end",))

    def beyond(self, formats, end):
        """Channels not below the count, where these are the formats of those below it."""
        also = () if ADPCM in formats else (30,)
        self.add(len(formats), 0, 5, 6, also=also)
        self.add(len(formats), self.past(end), 5, 6, also=also + ("the end",))
        self.add(self.draw.choice((2, 3, END)), 0, 0, 6)


def decode_case(oracle, slot, counts):
    lines = oracle.ask("decode", slot)
    if lines[0].startswith(("STOP", "PANIC")):
        raise Unbroken(lines[0])  # nothing to decode
    calls = Calls(slot, counts)
    formats = [int(line.split()[3][7:]) for line in lines if line.startswith("CHAN")]
    for number, format_ in enumerate(formats):
        blocks, rust = read_blocks(lines, number), rust_decodings(lines, number)
        if format_ == ADPCM:
            calls.adpcm(number, expected(blocks, rust, counts), read_lengths(lines, number))
            continue
        name = "PcmS16Be" if format_ == 10 else "PcmS8"
        reads = [given == f"STOP UnsupportedFormat({name})" or None for given, _ in rust[:-1]]
        if [given for given, _ in rust] != [f"STOP UnsupportedFormat({name})" if read else "STOP 1" for read in reads] + ["DONE"]:
            raise Disagreement("the Rust's decoder of a PCM channel")
        calls.pcm(number, reads)
    calls.beyond(formats, len(blocks))
    stored = slot.rstrip(b"\0")
    return case(DECODING, struct.pack(">II", len(slot), len(stored)) + stored + b"".join(calls.made))


def call_at(made, number):
    """What is asked and recorded in the call of this number."""
    at = 16 + struct.unpack_from(">I", made, 12)[0]
    for _ in range(number):
        at += 36 + 2 * struct.unpack_from(">I", made, at + 32)[0]
    channel, reply = struct.unpack_from(">I14xI", made, at)
    return channel, {0: "give samples", END: "give the end"}.get(reply, f"be refused with {reply}")


# ---- The program

def others(folder, cases):
    """The numbers of the cases in which our calls, by the program in this folder, say something else, and the places there."""
    program = os.path.join(folder, "replay")
    done = subprocess.run([program], input=b"".join(cases), capture_output=True)
    *lines, last = done.stdout.decode().split("\n")[:-1] or [""]
    found = {int(words[2]): int(words[4]) for words in map(str.split, lines)}
    if last != f"{len(cases)} cases, {len(found)} other" or done.returncode:
        raise SystemExit(f"{program} ended with {done.returncode} and {last!r} on {len(cases)} cases")
    return found
