"""Slots to compare: a list of every kind, and as many generated ones as are asked for."""
import random
import struct

from inputs import END, block, chain, channel, header

STEREO_LOAD = """mode auto
channels 2
cue range:7 3 1
cue loop 20 2
cue point 1 3
cue point 5 6
cue point 15 8
left 32000 16 0112233445566778 -1,2,-3,4,-5,6,-7,8,-9,10,-11,12,-13,14,-15,-16 258 17,-2,300
right 32000 16 899aabbccddeeff0 -32768,32767,256,-256,1000,-1000,17,-17,12345,-12345,0,1,-2,300,-300,255 772 33,400,-5
left 32000 16 0f1e2d3c4b5a697e -1,2,-3,4,-5,6,-7,8,-9,10,-11,12,-13,14,-15,-16 1286 50,-700,-8
right 32000 16 8796a5b4c3d2e1ff -32768,32767,256,-256,1000,-1000,17,-17,12345,-12345,0,1,-2,300,-300,255 1800 67,32767,-32768
"""
WORKED_LOAD = """mode auto
channels 1
cue loop 0 1
cue point 5 2
left 32000 16 0001020304050607 0 0 0,0,0
"""


# ---- The list

def changed(slot, at, *values):
    return slot[:at] + bytes(values) + slot[at + len(values):]


def placed(size, *blocks, **fields):
    """A slot of this size with block headers at given offsets."""
    slot = bytearray(header(**fields).ljust(size, b"\0"))
    for at, bytes_ in blocks:
        slot[at:at + len(bytes_)] = bytes_
    return bytes(slot)


def damaged(worked):
    """Damaged at each field of the file header."""
    for at in range(8):
        yield changed(worked, at, worked[at] ^ 1)
    for count in ((0, 0, 0, 0), (0, 0, 0, 2), (0, 0, 0, 3), (0, 0, 1, 0), (1, 0, 0, 1)):
        yield changed(worked, 12, *count)
    for number in (1, 9, 10, 11, 24, 25, 26, 256, 65535):
        yield changed(worked, 18, number >> 8, number & 255)
        yield changed(worked, 74, number >> 8, number & 255)
    yield changed(worked, 8, 0, 0, 0, 0)
    yield changed(worked, 8, 255, 255, 255, 255)


def cut_short(worked, stereo):
    """Cut short at each boundary."""
    for size in (0, 1, 7, 8, 11, 12, 15, 16, 17, 18, 19, 20, 71, 72, 73, 75, 76, 127, 128, 131, 132, 139, 140, 155, 156, 157, 159, 160, 168, 191, 192, 199, 200, 223):
        yield worked[:size]
    for size in (159, 224, 256, 287, 288, 319, 320, 351, 352, 415):
        yield stereo[:size]


def chained():
    """Loops, self-loops, strange next offsets; 512 and 513 blocks by overlapping headers."""
    for next_ in (128, 0, 1, 27, 96, 127, 129, 144, 160, 161, END - 1, 200, 1 << 31):
        yield placed(400, (128, block(next=next_)))
    yield placed(400, (128, block(next=160)), (160, block(next=192)), (192, block(next=160)))
    yield placed(400, (128, block(next=192)), (160, block()), (192, block(next=160)))
    yield placed(400, (128, block(next=333)), (333, block(next=161)), (161, block(next=333)))
    yield placed(192, (128, block(end=15, next=160)), (160, block(end=15)))
    for last in (END, 128, 2172, 2204):
        yield chain(last)
    yield chain(2204) + block()


def formats():
    """PCM16 and PCM8; lengths up to 4,294,967,296."""
    for first, second in ((10, 25), (25, 10), (0, 10), (10, 0), (25, 25)):
        for end in (0, 1, 2, 16, 17, 0x7FFFFFFF, END):
            yield placed(256, (128, block(end=end, next=160)), (160, block(end=3, cues=[(-1, 9)])), first=first, second=second, count=2)


def with_cues():
    """Cue counts up to 255, and cues before their base."""
    for count in (1, 2, 3, 4, 5, 8, 127, 128, 252, 253, 254, 255):
        yield placed(128 + 32 + 2048, (128, block(end=15, cues=[(7 * i, i) for i in range(count)])))
    yield placed(128 + 32 + 2040 - 32, (128, block(end=15, cues=[(i, i) for i in range(255)])))
    for index in (-1, -14, -15, -(1 << 31), (1 << 31) - 1):
        yield placed(320, (128, block(end=15, next=192, cues=[(index, 1)])), (192, block(end=15, next=192, cues=[(index, END), (3, 0)])))


def listed(load):
    """The list; `load` gives the Rust's file for a description."""
    worked, stereo = load(WORKED_LOAD), load(STEREO_LOAD)
    yield worked
    yield stereo
    yield from damaged(worked)
    yield from cut_short(worked, stereo)
    yield from chained()
    yield from formats()
    yield from with_cues()
    # the key's limit
    yield placed(65536, (128, block(end=15)))
    yield placed(65537, (128, block(end=15)))


# ---- Generated

def signed(n):
    return random.choice((0, 1, -1, 2, -n, n - 1, random.randrange(-n, n)))


def some_channel():
    number = random.choice((0, 0, 0, 0, 10, 25, 25, 10, random.choice((1, 9, 11, 24, 26, 256, 65535))))
    made = bytearray(channel(number, [signed(32768) for _ in range(16)], random.randrange(65536)))
    for at, width in ((0, 2), (4, 4), (8, 4), (12, 4), (50, 2), (52, 2), (54, 2)):
        made[at:at + width] = random.choice((bytes(width), random.randbytes(width)))
    return bytes(made)


def some_header():
    rate = random.choice((32000, 44100, 0, END, random.randrange(1 << 32)))
    count = random.choice((1, 1, 1, 2, 2, 2, 2, 1, random.choice((0, 3, 256, END))))
    magic = b" HALPST\0" if random.random() < 0.97 else random.choice((b" HALPST\1", b"\0HALPST\0", b" HALPsT\0", random.randbytes(8)))
    return magic + struct.pack(">II", rate, count) + some_channel() + some_channel()


def some_block(next_):
    """A block's header with cues, and data that may be too long, too short or as long as the end address wants."""
    end = random.choice((0, 1, 2, 3, 15, 16, 17, 31, random.randrange(200), random.randrange(200)))
    if random.random() < 0.03:
        end = random.choice((0xFFFF, 0x7FFFFFFF, END, END - 1))
    count = random.choice((0, 0, 0, 1, 2, 3, 4, 5, random.randrange(256) if random.random() < 0.1 else 0))
    start = struct.pack(">III", random.randrange(1 << 32), end, next_) + random.randbytes(16) + bytes((count,)) + random.randbytes(3)
    cues = b"".join(struct.pack(">iI", signed(1 << 31), random.choice((0, 7, END, random.randrange(1 << 32)))) for _ in range(count))
    filler = struct.pack(">iI", -1, 0) * (-count % 4)
    data = random.randbytes(random.choice((0, 1, 32, 64, 128, (end + 1) // 2 % 1000, (end + 1) % 1000, 2 * (end + 1) % 1000)))
    return start + cues + filler + data


def some_chain():
    """Blocks one after the other or over each other, with next offsets that mostly lead on, back or to the end."""
    slot = bytearray(some_header())
    starts = [128]
    for _ in range(random.choice((1, 1, 2, 3, 4, 6))):
        at = starts[-1]
        made = some_block(END)
        slot[at:at + len(made)] = made
        slot = slot.ljust(at + len(made), b"\0")
        starts.append(random.choice((len(slot), len(slot), len(slot) + random.randrange(40), 128 + random.randrange(len(slot) - 127))))
        slot = slot.ljust(starts[-1], b"\0")
    for i, at in enumerate(starts[:-1]):
        leads = (starts[i + 1], starts[i + 1], starts[i + 1], random.choice(starts), END)
        if i == len(starts) - 2:
            leads = (END, END, random.choice(starts[:-1]), starts[-1])
        next_ = random.choice(leads) if random.random() < 0.95 else random.choice((0, 8, 127, len(slot) - 32, len(slot) - 31, random.randrange(1 << 32)))
        if at + 12 <= len(slot):
            struct.pack_into(">I", slot, at + 8, next_)
    return slot


def long_chain():
    """509 to 515 blocks, each over the one before."""
    many = 512 + random.randrange(-3, 4)
    last = 128 + 4 * (many - 1)
    slot = bytearray(some_header().ljust(last + 32 + random.choice((0, 0, 1, 40)), b"\0"))
    for at in range(128, last, 4):
        struct.pack_into(">I", slot, at + 8, at + 4)
    struct.pack_into(">I", slot, last + 8, random.choice((END, 128 + 4 * random.randrange(many), last + 4, last + 32)))
    return slot


def noise():
    """A header, then noise in which some offsets stand."""
    size = random.choice((160, 300, 700))
    slot = bytearray(header(count=random.choice((1, 2)), first=random.choice((0, 10, 25))) + random.randbytes(size - 128))
    for _ in range(3):
        struct.pack_into(">I", slot, random.randrange(128, size - 12), random.choice((128, 132, 160, size - 40, END)))
    return slot


def some_slot(files):
    """Mostly a chain; now and then one of these files, which the Rust wrote, or noise, or a long chain. A part may then be missing or changed."""
    made = random.choices((some_chain, lambda: bytearray(random.choice(files)), noise, long_chain), (1000, 110, 20, 1))[0]
    slot = made()
    if random.random() < 0.15:
        slot = slot[:random.randrange(len(slot) + 1)]
    for _ in range(random.choice((0, 0, 0, 1, 3))):
        if slot:
            slot[random.randrange(len(slot))] = random.randrange(256)
    if random.random() < 0.002:
        slot = slot.ljust(random.choice((65536, 65537)), b"\0")
    return bytes(slot)
