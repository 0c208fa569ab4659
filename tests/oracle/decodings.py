"""Decoding by the text of document 02's Card 1, in whole numbers; and slots to decode: a list, and as many generated ones as are asked for."""
import random
import struct

from inputs import END, channel
from orders import bytes_for, up

LOW, HIGH = -32768, 32767
ADPCM, PCM16, PCM8 = 0, 10, 25


# ---- The decoding

def in_32_bits(n):
    return (n + 2**31) % 2**32 - 2**31


def decoded(coefficients, context, length, data, kept=lambda n: n):
    """The samples of a block, the context after them, and whether a sum was beyond 32 bits. `kept` is what is kept of a sum: of the card's all, of the Rust's
    32 bits (D26)."""
    ps, last, oldest = context
    samples, beyond = [], False
    for address in range(2, length):
        if address % 16 == 0:
            ps = data[address // 2]
        if address % 16 < 2:
            continue
        half = data[address // 2] // 16 if address % 2 == 0 else data[address // 2] % 16
        pair = ps // 16 % 8 * 2
        total = coefficients[pair] * last + coefficients[pair + 1] * oldest + 1024
        beyond = beyond or total != in_32_bits(total)
        value = kept(total) // 2048 + (half - 16 if half > 7 else half) * 2**(ps % 16)
        last, oldest = min(max(value, LOW), HIGH), last
        samples.append(last)
    return samples, (ps, last, oldest), beyond


# ---- Slots

def slot_of(formats, coefficients, blocks, count=1):
    """A slot with these formats and coefficients of its two channels. A block has its length, a context for each channel, and its data: what lies between its
    header and the next one's."""
    slot = b" HALPST\0" + struct.pack(">II", 32000, count) + b"".join(map(channel, formats, coefficients))
    for i, (length, contexts, data) in enumerate(blocks):
        next_ = len(slot) + 32 + len(data) if i < len(blocks) - 1 else END
        slot += struct.pack(">III", len(data), length - 1, next_) + b"".join(struct.pack(">Hhh2x", *one) for one in contexts) + bytes(4) + data
    return slot


def mono(*blocks, coefficients=(0,) * 16, formats=(ADPCM, ADPCM)):
    """A mono slot of blocks with their length, context and data. The second channel's record, which is not in use, has a format too."""
    return slot_of(formats, (coefficients, (0,) * 16), [(n, (context, (0, 0, 0)), data) for n, context, data in blocks])


def wrapping():
    """The smallest slot in which the Rust's sum wraps."""
    return mono((3, (0, LOW, LOW), bytes(2)), coefficients=(LOW,) * 2 + (0,) * 14)


def gap():
    """Two blocks, of which the first one's data leaves the slot. Opening does not look for it."""
    return mono((9999, (0, 0, 0), b""), (3, (0, 0, 0), b"\x00\x50"))


def listed():
    # What passes on is not what the next block starts from: its samples are 0.
    zeros = (0, 0, 0)
    yield mono((16, zeros, bytes(range(8))), (16, zeros, bytes(8)), coefficients=(2048,) + (0,) * 15)
    # The first frame goes by the block's context, not by its header byte.
    yield mono((3, zeros, b"\x01\x10"))
    # Lengths around a frame's header: with 17 and 18 its byte is in what passes on alone.
    counted = tuple(range(1000, 1016))
    for length in (1, 2, 3, 16, 17, 18, 19, 33, 34):
        yield mono((length, (0x1234, 300, -200), bytes(b * 37 % 256 for b in range(5, 5 + bytes_for(length)))), coefficients=counted)
    yield wrapping()
    yield gap()
    # No channel is ADPCM: one that is not below the count is refused with 6 all the same.
    yield mono((1, zeros, b"\x00\x7f"), formats=(PCM16, PCM16))
    # A PCM channel whose data leaves the slot, and one whose data does not.
    for number in (PCM16, PCM8):
        yield slot_of((number, ADPCM), ((0,) * 16,) * 2, [(16, (zeros, (0x21, LOW, HIGH)), bytes(range(40, 80))), (200, (zeros,) * 2, bytes(9))], count=2)


def walk_in():
    """A stereo slot to listen to: a note in each channel, which the first pair of coefficients lets ring and fade, then noise by every pair and by scales up to
    128, then the notes again, in a block that ends within a frame."""
    random.seed("walk-in")
    others = [1800, 200, 3000, -1000, 2500, -600, 1000, 500, 3900, -1900, -1500, 300, 0, 0]
    coefficients = [4081, -2044] + others, [4062, -2044] + others
    notes = [(length, ((0, 700, 0), (0, 900, 0)), bytes(2 * up(bytes_for(length)))) for length in (4096, 1001)]
    noise = bytearray(random.randbytes(2 * up(bytes_for(640))))
    for at in range(0, len(noise), 8):
        noise[at] = random.randrange(8) * 16 + random.randrange(8)
    return slot_of((ADPCM, ADPCM), coefficients, [notes[0], (640, ((0x13, 0, 0), (0x25, 40, -40)), bytes(noise)), notes[1]], count=2)


# ---- Generated

def some_number(low):
    """An i16; with this chance the least one."""
    if random.random() < low:
        return LOW
    return random.choice((LOW, HIGH, HIGH, 0, random.randrange(-2048, 2049), random.randrange(LOW, HIGH + 1), random.randrange(LOW, HIGH + 1)))


def some_length():
    """Mostly up to 70; often such that the block ends in a frame's header."""
    n = random.randrange(1000, 8000) if random.random() < 0.02 else random.randrange(1, 71)
    return n // 16 * 16 + random.choice((1, 2)) if random.random() < 0.25 else n


def some_data(count):
    byte = random.choice((0x00, 0x77, 0x88, 0xFF, 0x7F, 0x80, 0x0F))
    return random.choice((random.randbytes(count), random.randbytes(count), bytes((byte,)) * count, bytes(random.choice((byte, 0, 0x88)) for _ in range(count))))


def some_block(low, count):
    length = some_length()
    contexts = [(random.choice((0, random.randrange(256), random.randrange(65536))), some_number(low), some_number(low)) for _ in range(2)]
    return length, contexts, some_data(count * up(bytes_for(length)))


def leaving(slot, count):
    """The slot with a length so changed that the data ends with the slot, or leaves it by a byte or by more."""
    at = 128
    for _ in range(random.randrange(count)):
        at = struct.unpack_from(">I", slot, at + 8)[0]
    there = len(slot) - at - 32 + random.choice((0, 1, 1, 2, 700))
    return slot[:at + 4] + struct.pack(">I", max(2 * there - random.choice((1, 2)), 0)) + slot[at + 8:]


def some_decoding():
    """A mono or stereo slot of one to four blocks. Now and then a channel is PCM, and a block's data leaves the slot."""
    low, count = random.choice((0.02, 0.02, 0.02, 0.3, 0.3, 0.9)), random.choice((1, 2))
    formats = [random.choice((ADPCM,) * 8 + (PCM16, PCM8)) for _ in range(2)]
    coefficients = [[some_number(low) for _ in range(16)] for _ in range(2)]
    blocks = [some_block(low, count) for _ in range(random.choice((1, 1, 2, 2, 3, 4)))]
    slot = slot_of(formats, coefficients, blocks, count)
    return leaving(slot, len(blocks)) if random.random() < 0.2 else slot
