"""Slots as bytes, and loadings as the descriptions that `oracle load` takes."""
import struct

END = 0xFFFFFFFF


def channel(number=0, coefficients=(0,) * 16, gain=0):
    """A channel record of this format: looping, addresses and context are 0."""
    return struct.pack(">HHIII16hH3h", 0, number, 0, 0, 0, *coefficients, gain, 0, 0, 0)


def header(first=0, second=0, rate=1, count=1, coefficients=(0,) * 16, gain=0):
    """A file header whose channels have these formats."""
    start = b" HALPST\0" + struct.pack(">II", rate, count)
    return start + channel(first, coefficients, gain) + channel(second)


def block(end=1, next=END, cues=(), context=(0, 0, 0)):
    """A block header of size 0 with its cues, filled up to a multiple of 4."""
    start = struct.pack(">IIIHhhH8xB3x", 0, end, next, *context, 0, len(cues))
    filled = list(cues) + [(-1, 0)] * (-len(cues) % 4)
    return start + b"".join(struct.pack(">iI", *cue) for cue in filled)


def chain(last):
    """512 blocks at 128, 132, .., 2172, each over the one before; the last one's next offset is `last`."""
    slot = bytearray(header().ljust(2172 + 32, b"\0"))
    for offset in range(128, 2172, 4):
        struct.pack_into(">I", slot, offset + 8, offset + 4)
    struct.pack_into(">I", slot, 2172 + 8, last)
    return bytes(slot)


def mono(*lines, mode="auto"):
    return ";".join([f"mode {mode}", "channels 1", *lines])


def stereo(*lines):
    return ";".join(["mode auto", "channels 2", *lines])


def left(length, data=None, rate=1, coefficients=0, gain=0, side="left"):
    """A block; without `data` it has zeros, as many bytes as the length wants."""
    digits = "00" * ((length + 1) // 2) if data is None else data.hex()
    return f"{side} {rate} {length} {digits or '-'} {coefficients} {gain} 0,0,0"


def right(length, data=None, rate=1):
    return left(length, data, rate, side="right")
