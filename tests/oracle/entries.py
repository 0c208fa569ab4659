"""The entries of docs/DIFFERENCES.md: inputs, the document's answers and the Rust's.

The quotations are the sentences of document 01 that its answer comes from; those of document 02 are named.
"""
from dataclasses import dataclass
from typing import Callable

from inputs import END, block, chain, header, left, mono, right, stereo
from views import (RATE, count_byte, end_address, end_address_and_size, end_addresses, ending, ending_in_mono, ending_in_two, exact_listing, first,
                   first_channel, heard, last, like_a_file, listing, loaded, opening, reads, second_channel, size, whole)


@dataclass
class Run:
    what: str
    command: str  # of the oracle; "limited" is `read` in 1 GiB of address space
    data: object  # a slot's bytes or a description
    document: str
    rust: str
    view: Callable = whole
    build: str = "release"
    same: bool = False  # whether the two answers are the same


@dataclass
class Entry:
    name: str
    title: str
    runs: list
    why_not: str = ""  # why it cannot be run


def both(what, command, data, answer, view=whole):
    return Run(what, command, data, answer, answer, view, same=True)


def load(what, data, document, rust, view, build="release"):
    return Run(what, "load", data, document, rust, view, build)


def load_both(what, data, answer, view):
    return both(what, "load", data, answer, view)


ONE = header() + block()
LISTED = "HEAD 1 1 1 - / BLCK 0 128 2 0 0"
LISTED_WITH_CUE = "HEAD 1 1 1 - / BLCK 0 128 2 0 1 / CUEP"


def opening_and_reading():
    # "4 format unknown", "a bad value when its field is read": the format is the last field of the 20 bytes.
    unknown = header(first=1)
    yield Entry("D1", "unknown format", [
        both("20 bytes", "raw", unknown[:20], "STOP 4"),
        Run("20 bytes, num_enum 0.5", "raw", unknown[:20], "STOP 4", "STOP 1", build="old"),
        Run("160 bytes, num_enum 0.5", "raw", unknown + block(), "STOP 4", LISTED, build="old"),
    ])
    # "A 513th block is refused before it is read." "5 over 512 blocks"
    yield Entry("D2", "513 blocks", [
        Run("2,236 bytes", "raw", chain(2204) + block(), "STOP 5", "HEAD 1 1 513 -", first),
    ])
    # The same sentence: where the 513th lies is not looked at.
    yield Entry("D3", "512 blocks, and a next offset past the slot", [
        Run("2,204 bytes", "raw", chain(2204), "STOP 5", "STOP 1"),
    ])
    # "Opening checks 7", "7 slot over 16,777,216 bytes"
    yield Entry("D4", "a slot over 16,777,216 bytes", [
        Run("16,777,217 bytes", "raw", ONE.ljust(16777217, b"\0"), "STOP 7", LISTED),
        both("16,777,216 bytes", "raw", ONE.ljust(16777216, b"\0"), LISTED),
    ])
    # "Block read, for a channel and a position: 6", "6 channel not below the count"
    yield Entry("D5", "a channel not below the count", [
        Run("mono, channel 1", "chan1", ONE, "6", "PANIC invalid channel index"),
        Run("stereo, channel 2", "chan2", header(count=2) + block(), "6", "PANIC invalid channel index"),
    ])
    # "the position moves on, then 1 if header or data leaves the slot", "block read's 1 comes with the moved position"
    yield Entry("D6", "end address FFFFFFFF, in 1 GiB of address space", [
        Run(f"192 bytes, {name}", "limited", header(number) + block(end=END) + bytes(32), "1 and position 1",
            f"signal 6, memory allocation of {gib * 2**30} bytes failed")
        for name, number, gib in (("ADPCM", 0, 2), ("PCM8", 25, 4), ("PCM16", 10, 8))
    ])
    # "It gives the record's rate, format, coefficients and gain, the block's length and context, and the data"
    adpcm_only = " coef=1,2,3,4,5,6,7,8,9,10,11,12,13,14,15,16 gain=17 ctx=18,-19,20"
    yield Entry("D7", "block read of PCM", [
        Run(name, "read",
            header(number, coefficients=range(1, 17), gain=17) + block(context=(18, -19, 20)) + bytes.fromhex(data),
            f"READ 0 0 ch=1 rate=1 format={number} len=2{adpcm_only} data={data}",
            f"READ 0 0 ch=1 rate=1 format={number} len=2 data={data}", reads)
        for name, number, data in (("PCM16", 10, "0102fffe"), ("PCM8", 25, "01fe"))
    ])
    # "at base + index sign-extended, the sum taken modulo 2^64";
    # "Index -1 at base 14 gives 13, at base 0 gives 18,446,744,073,709,551,615."
    early = block(cues=[(-1, 7)])
    after_14 = header() + block(end=15, next=160) + early
    yield Entry("D8", "cue index -1", [
        both("base 14", "raw", after_14, "CUEP 13 7", last),
        Run("base 14, with overflow checks", "raw", after_14, "CUEP 13 7", "PANIC attempt to add with overflow", last,
            build="checked"),
        both("base 0", "raw", header() + early, "CUEP 18446744073709551615 7", last),
    ])
    # "The addresses remaining from a position are the sum of lengths over the blocks from there on, 0 past the last"
    yield Entry("D9a", "addresses remaining past the last block", [
        Run("one block, and reads at the end", "past", ONE + b"\0", "2 at position 0, 0 at 1, 2 and all later ones",
            "LEFT 2 READ / LEFT 0 DONE / LEFT 0 DONE / LEFT 0 DONE"),
    ])


def loading():
    # "10 length 0 or 1"; of the order only 26, 29, 25, 15, 22, 9 and 12 come earlier.
    yield Entry("D9", "a push of length 0", [
        load("[0]", mono(left(0)), "10",
             "OK, end address ffffffff, in the block ffffffff, HEAD 1 1 1 - / BLCK 0 128 4294967296 3758096384 0",
             loaded(end_addresses)),
        load("[0], with overflow checks", mono(left(0)), "10", "PANIC", ending, "checked"),
        load("[0, 1 byte] [16]", mono(left(0, b"\0"), left(16)), "10", "OK, end address 0000000f, 256 bytes", loaded(end_address_and_size)),
        # "A push of length 0 in every channel, with no data and without the last mark, is now accepted: it hands out no write and leaves the record alone"
        # (document 02, Card 2)
        load("[0] [16]", mono(left(0), left(16)), "OK, end address 0000000f, 192 bytes", "OK, end address 0000000f, 224 bytes", loaded(end_address_and_size)),
        load("[16] [0] [16]", mono(left(16), left(0), left(16)), "OK, HEAD 1 1 2 - / BLCK 0 128 16 14 0 / BLCK 1 192 16 14 0",
             "OK, HEAD 1 1 3 - / BLCK 0 128 16 14 0 / BLCK 1 192 4294967296 3758096384 0 / BLCK 2 224 16 14 0", loaded(listing)),
        load("[16] [0] [16], with overflow checks", mono(left(16), left(0), left(16)), "OK", "PANIC", ending, "checked"),
        # "so rates and coefficients aren't looked at" (document 02, Card 2)
        load("[16] [0, rate 2] [16]", mono(left(16), left(0, rate=2), left(16)), "OK", "22", ending_in_mono),
        load("[0, rate 0] [16]", mono(left(0, rate=0), left(16)), "OK", "9", ending),
        load("[16] [0, coefficients 1] [16]", mono(left(16), left(0, coefficients=1), left(16)), "OK", "23", ending),
        load("stereo, left [0], right [0, rate 2], then [16]", stereo(left(0), right(0, rate=2), left(16), right(16)), "OK", "15", ending_in_two),
    ])
    # The same sentence.
    yield Entry("D10", "a push of length 1", [
        load("[1]", mono(left(1)), "10", "OK, 192 bytes", loaded(size)),
        load("[1, coefficients 1, gain 1] [16, coefficients 2, gain 2]",
             mono(left(1, coefficients=1, gain=1), left(16, coefficients=2, gain=2)), "10",
             "OK, end address 0000000f, coefficient 2, gain 2", loaded(first_channel)),
        load("[16] [1]", mono(left(16), left(1)), "10", "OK, end address 00000010", loaded(end_address)),
    ])
    # "11 data not as long as the bytes for its length"; "ADPCM (n+1)/2 rounded down": one byte for 2 addresses.
    # 13 comes earlier, but it goes by the length: the estimate, which has lengths alone, gives it too.
    yield Entry("D11", "data of another length", [
        load("[2, no data]", mono(left(2, b"")), "11", "OK, 160 bytes", loaded(size)),
        load("[2, 2 bytes]", mono(left(2, bytes(2))), "11", "OK, 192 bytes", loaded(size)),
        load("[2, 65,537 bytes]", mono(left(2, bytes(65537))), "11", "OK, 65,728 bytes", loaded(size)),
        load("left [2, 33 bytes 11], right [2, byte 22]", stereo(left(2, b"\x11" * 33), right(2, b"\x22")), "11",
             "OK, channel 1 has data=11", loaded(second_channel)),
    ])
    # "8 start over 2,147,483,647"; "Start 2,147,483,647 passes, one more gives 8."
    yield Entry("D12", "a start over 2,147,483,647", [
        load_both("Point at 2^31 - 1", mono(f"cue point {2**31 - 1} 1", left(2)),
                  f"OK, {LISTED_WITH_CUE} 2147483647 1", loaded(listing)),
        load("Point at 2^31", mono(f"cue point {2**31} 1", left(2)), "8",
             f"OK, {LISTED_WITH_CUE} 18446744071562067968 1", loaded(listing)),
        load("Point at 2^32 + 5", mono(f"cue point {2**32 + 5} 1", left(2)), "8",
             f"OK, {LISTED_WITH_CUE} 5 1", loaded(listing)),
        load("Point at 2^64 - 1", mono(f"cue point {2**64 - 1} 1", left(2)), "8", f"OK, {LISTED}", loaded(listing)),
        load("Enabled, Loop at 2^64 - 1", mono(f"cue loop {2**64 - 1} 1", left(2), mode="enabled"), "8",
             f"OK, {LISTED}", loaded(listing)),
    ])
    # "8 start over 2,147,483,647 or range length 0"
    yield Entry("D13", "range length 0", [
        load("Range at 0", mono("cue range:0 0 1", left(2)), "8", "PANIC zero-duration range cue", whole),
    ])
    # "20 table holds 128 cues"
    points = [f"cue point {start} 1" for start in range(256)]
    yield Entry("D14", "over 128 cues", [
        load("129 points", mono(*points[:129], left(16)), "20",
             "OK, count byte 129, HEAD 1 1 1 - / BLCK 0 128 16 14 129 / CUEP 0 1", loaded(count_byte)),
        load("256 points", mono(*points, left(16)), "20",
             "OK, count byte 0, HEAD 1 1 1 - / BLCK 0 128 16 14 0", loaded(count_byte)),
    ])
    # "25 512 blocks pushed"; of the order only 26 and 29 come earlier.
    yield Entry("D15", "513 pushes", [
        load("513 times [2]", mono(*[left(2)] * 513), "25", "OK, 32,960 bytes", loaded(size)),
    ])
    # "15 channel rates differ", "22 rate, 23 coefficients other than the first block's"
    yield Entry("D16", "rates that differ", [
        load("left [2], right [2, rate 2]", stereo(left(2), right(2, rate=2)), "15", RATE, ending),
        load("[2] [2, rate 2]", mono(left(2), left(2, rate=2)), "22", RATE, ending),
        load("stereo, [2] [2, rate 2]", stereo(left(2), right(2), left(2, rate=2), right(2, rate=2)), "22", RATE,
             ending),
    ])
    # "29 push of another channel count"; of the order only 26 comes earlier.
    yield Entry("D17", "stereo with one side longer", [
        load("left [2] [2], right [2]", stereo(left(2), left(2), right(2)), "29", "12", ending),
        load("left [2], right [2] [2]", stereo(left(2), right(2), right(2)), "29", "12", ending),
        load("left [2] [2, rate 2], right [2]", stereo(left(2), left(2, rate=2), right(2)), "29", "12", ending),
    ])
    yield Entry("D18", "slot length, lent buffer and last mark", [],
                "HpsWriter takes none of them, nor a channel count as a number, nor a cue after a block: "
                "nothing asks for begin's 3 and 7, for 14, 21, 24, 26 or 28")
    # "22 rate, 23 coefficients other than the first block's"; "the book stays";
    # "The Rust ends at its first error and is compared up to there; going on is added."
    yield Entry("D19", "after a refused push", [
        load("[2] [2, rate 2]", mono(left(2), left(2, rate=2)),
             "22 at push 1, block 0 handed out, loading goes on", f"{RATE}, 128 bytes, opens to STOP 3",
             loaded(opening)),
        load("[2] [2] [2, rate 2]", mono(left(2), left(2), left(2, rate=2)),
             "22 at push 2, blocks 0 and 1 handed out, loading goes on", f"{RATE}, 192 bytes, opens to STOP 3",
             loaded(opening)),
    ])
    # "11 data not as long as the bytes for its length": the blocks have no data, or the file would have 2 GiB.
    # With data "24 block passes the slot's end" comes at the 256th push in the longest slot:
    # 128 + 256 x (32 + 65,536) is over 16,777,216.
    many = [left(131072, b"")] * 32768
    yield Entry("D20", "2^32 addresses and more", [
        load("32,768 times [131,072, no data]", mono(*many), "11", "OK, end address ffffffff", loaded(end_address)),
        load("the same and [2]", mono(*many, left(2)), "11", "OK, end address 00000001", loaded(end_address)),
        load("with overflow checks", mono(*many, left(2)), "11", "PANIC", ending, "checked"),
    ])
    # "13 over 65,536 bytes (mono) or 32,768 per channel (stereo)"; of the order only 26, 29, 25, 15, 22, 9, 12 and 10 come earlier.
    far, byte = 2**62, b"\0"
    yield Entry("D21", "a length of 2^62 or more", [
        load("[2^62, no data]", mono(left(far, b"")), "13", "OK, end address ffffffff", loaded(end_address)),
        load("[2^62 + 2, 1 byte]", mono(left(far + 2, byte)), "13", "OK, the file of [2]", loaded(like_a_file)),
        load("[2^62 + 2, 1 byte], with overflow checks", mono(left(far + 2, byte)), "13", "PANIC", ending, "checked"),
        load("[2^63 + 2, 1 byte]", mono(left(2 * far + 2, byte)), "13", "OK, the file of [2]", loaded(like_a_file)),
        load("stereo, [2^62 + 2, 1 byte]", stereo(left(far + 2, byte), right(far + 2, byte)), "13", "OK, 224 bytes", loaded(size)),
        load("[2] [2^62 + 2, 1 byte, coefficients 1]", mono(left(2), left(far + 2, byte, coefficients=1)), "13", "23", ending),
        load_both("[2^62 - 1, 1 byte]", mono(left(far - 1, byte)), "13", ending),
        load_both("[2^62 + 131,073, 1 byte]", mono(left(far + 131073, byte)), "13", ending),
        load_both("[2^64 - 1, 1 byte]", mono(left(4 * far - 1, byte)), "13", ending),
    ])
    # "Order: 26, 29, 25, 15, 22, 9, 12, 10, 13, 11, 23, 24, 14.": 11 before 23.
    yield Entry("D22", "data of another length, and other coefficients", [
        load("[2] [2, no data, coefficients 1]", mono(left(2), left(2, b"", coefficients=1)), "11", "23", ending),
    ])
    # The same sentence: 10 before 23.
    yield Entry("D23", "length 0 or 1, and other coefficients", [
        load("[2] [0, coefficients 1]", mono(left(2), left(0, coefficients=1)), "10", "23", ending),
        load("[2] [1, coefficients 1]", mono(left(2), left(1, coefficients=1)), "10", "23", ending),
    ])
    # The same sentence: 25 before all but 26 and 29, and 26 before all.
    yield Entry("D24", "a 513th push that breaks a later rule", after(512, "25"))
    yield Entry("D25", "a push after the last block that breaks a later rule", after(1, "26"))


def after(count, due):
    """A push that breaks a rule which the Rust has, after so many blocks."""
    one, both_sides = [left(2)] * count, [left(2), right(2)] * count
    return [
        load("right side of rate 2", stereo(*both_sides, left(2), right(2, rate=2)), due, "15", ending_in_two),
        load("rate 2", mono(*one, left(2, rate=2)), due, "22", ending_in_mono),
        load("right side of length 3", stereo(*both_sides, left(2), right(3)), due, "12", ending),
        load("length 131,073, no data", mono(*one, left(131073, b"")), due, "13", ending),
        load("coefficients 1", mono(*one, left(2, coefficients=1)), due, "23", ending),
    ]


def hearing_the_block():
    # "Sums are whole numbers that never overflow; a place where the Rust would wrap or panic is recorded as a difference."
    lowest = block(end=2, context=(0, -32768, -32768)) + bytes(2)
    beyond, near = (header(coefficients=(-32768, second) + (0,) * 14) + lowest for second in (-32768, -32767))
    highest = "PCM 0 0 after=0,32767,-32768 len=1 data=32767 / PCM 0 1 after=0,32767,-32768 DONE"
    yield Entry("D26", "a sum beyond 32 bits", [
        Run("162 bytes", "decode", beyond, highest, "PCM 0 0 after=0,-32768,-32768 len=1 data=-32768 / PCM 0 1 after=0,-32768,-32768 DONE", heard),
        Run("162 bytes, with overflow checks", "decode", beyond, highest, "PANIC attempt to add with overflow", heard, build="checked"),
        both("one coefficient -32,767", "decode", near, highest, heard),
        Run("one coefficient -32,767, with overflow checks", "decode", near, highest, highest, heard, build="checked", same=True),
    ])
    # "A refused decoding moves neither the position nor what passes on."
    yield Entry("D27", "a block whose data leaves the slot, and a block after it", [
        Run("194 bytes", "decode", header() + block(end=9998, next=160) + block(end=2) + b"\x00\x50", "1 at position 0, and position 0 again",
            "PCM 0 0 after=0,0,0 STOP 1 / PCM 0 1 after=0,5,0 len=1 data=5 / PCM 0 2 after=0,5,0 DONE", heard),
    ])
    # "It refuses with 30 when the channel isn't ADPCM, checked right after 6 and before the end"
    yield Entry("D28", "decoding of PCM", [
        Run(what, "decode", header(number) + block() + bytes(count), "30 at position 0, 1 and all later ones",
            f"PCM 0 0 after=0,0,0 STOP {theirs} / PCM 0 1 after=0,0,0 DONE", heard)
        for what, number, count, theirs in (
            ("PCM16", 10, 4, "UnsupportedFormat(PcmS16Be)"), ("PCM16, a byte short", 10, 3, "1"),
            ("PCM8", 25, 2, "UnsupportedFormat(PcmS8)"), ("PCM8, a byte short", 25, 1, "1"))
    ])


def same_in_both():
    # "Any offset is allowed, 0 and odd ones too." At 0 the file header is read as a block: `PST` and a zero are its
    # end address, the rate its next offset. Samples: 1,347,638,273 mod 16 is 1, so n becomes 1,347,638,274, and
    # 2 x (84,227,392 + 1) come off.
    at_0 = "BLCK 0 128 2 0 0 / BLCK 1 0 1347638273 1179183488 0"
    yield Entry("S1", "next offset 0", [
        both("rate FFFFFFFF", "raw", header(rate=END) + block(next=0), f"HEAD 4294967295 1 2 - / {at_0}"),
        both("rate 0", "raw", header(rate=0) + block(next=0), f"HEAD 0 1 2 1 / {at_0} / LOOP 0"),
        both("rate 128", "raw", header(rate=128) + block(next=0), f"HEAD 128 1 2 0 / {at_0} / LOOP 0"),
    ])
    # The same sentence.
    odd = header() + block(next=161) + b"\0" + block()
    yield Entry("S2", "an odd next offset", [
        both("193 bytes", "raw", odd, "HEAD 1 1 2 - / BLCK 0 128 2 0 0 / BLCK 1 161 2 0 0"),
        both("192 bytes", "raw", odd[:-1], "STOP 1"),
    ])
    # "an offset already walked ends with that block's index as loop start"
    yield Entry("S3", "a block that follows itself", [
        both("160 bytes", "raw", header() + block(next=128), "HEAD 1 1 1 0 / BLCK 0 128 2 0 0 / LOOP 0"),
    ])
    # "next offset 4,294,967,295 ends with no loop", "else the walk goes there": one less lies past every slot.
    yield Entry("S4", "next offset FFFFFFFE", [both("160 bytes", "raw", header() + block(next=END - 1), "STOP 1")])
    # "the first field not wholly in the slot refuses with 1": the 8 bytes are one field.
    yield Entry("S5", "wrong first bytes", [
        both("7 bytes", "raw", b"XHALPST", "STOP 1"),
        both("8 bytes", "raw", b"XHALPST\0", "STOP 2"),
    ])
    # "Both channels' formats are checked, also in mono."
    yield Entry("S6", "mono's second format", [
        both("76 bytes", "raw", header(second=1)[:76], "STOP 4"),
        both("75 bytes", "raw", header(second=1)[:75], "STOP 1"),
    ])
    # "it reads block headers with their filled cues"
    one_cue = header() + block(cues=[(0, 7)])
    yield Entry("S7", "filler", [
        both("192 bytes", "raw", one_cue, f"{LISTED_WITH_CUE} 0 7"),
        both("191 bytes", "raw", one_cue[:-1], "STOP 1"),
        both("168 bytes", "raw", one_cue[:168], "STOP 1"),
    ])
    # "filled up to a multiple of 4 cues": to 256.
    runs = []
    for n in (253, 254, 255):
        slot = header() + block(cues=[(0, 7)] * n)
        listed = ["HEAD 1 1 1 -", f"BLCK 0 128 2 0 {n}"] + ["CUEP 0 7"] * n
        runs += [both(f"{n}, 2,208 bytes", "raw", slot, " / ".join(listed)),
                 both(f"{n}, 2,207 bytes", "raw", slot[:2207], "STOP 1")]
    yield Entry("S8", "count bytes 253 to 255", runs)
    # "Enabled with no Loop cue works as if a Loop at 0 stood first", "A block whose first sample is b with n samples
    # takes the cues not yet taken whose start is below b + n; the last takes all that remain."
    yield Entry("S9", "Enabled with no Loop cue, and blocks of 0 samples", [
        load_both("[2] [2] [16]", mono(left(2), left(2), left(16), mode="enabled"),
                  "OK, HEAD 1 1 3 2 / BLCK 0 128 2 0 0 / BLCK 1 192 2 0 0 / BLCK 2 256 16 14 0 / LOOP 0",
                  loaded(listing)),
        load_both("[2]", mono(left(2), mode="enabled"), "OK, HEAD 1 1 1 0 / BLCK 0 128 2 0 0 / LOOP 0",
                  loaded(listing)),
    ])
    # "Order: 26, 29, 25, 15, 22, 9": 22 before 9.
    yield Entry("S10", "rate 0", [
        load_both("[2] [2, rate 0]", mono(left(2), left(2, rate=0)), "22", ending_in_mono),
        load_both("[2, rate 0]", mono(left(2, rate=0)), "9", ending_in_mono),
    ])
    # "Order: 26, 29, 25, 15, 22, 9, 12, 10": 12 before 10.
    yield Entry("S11", "lengths 0 and 2", [
        load_both("left [0], right [2]", stereo(left(0), right(2)), "12", ending),
        load_both("left [2], right [0]", stereo(left(2), right(0)), "12", ending),
    ])
    # "A 513th block is refused": 512 are not.
    yield Entry("S12", "512 blocks that loop", [both("2,204 bytes", "raw", chain(128), "HEAD 1 1 512 0", first)])
    # "Input: mono, 32,000, Auto, Loop at 0, Point at 5, one 16-address block:" and the listing below it.
    yield Entry("S13", "the worked example", [
        load_both("its listing", mono("cue loop 0 1", "cue point 5 2", left(16, bytes(range(8)), rate=32000)),
                  "OK, HEAD      32000          1          1          0\n"
                  "BLCK          0        128         16         14          1\n"
                  "LOOP                    0\n"
                  "CUEP                    5          1", loaded(exact_listing)),
    ])
    # "Order: 26, 29, 25, 15, 22, 9, 12, 10, 13, 11, 23, 24, 14."
    long = 131073
    yield Entry("S14", "two rules broken at once", [
        load_both("22 and 13", mono(left(2), left(long, b"", rate=2)), "22", ending_in_mono),
        load_both("22 and 23", mono(left(2), left(2, rate=2, coefficients=1)), "22", ending_in_mono),
        load_both("13 and 23", mono(left(2), left(long, b"", coefficients=1)), "13", ending),
        load_both("15 and 9", stereo(left(2, rate=0), right(2)), "15", ending_in_two),
        load_both("9 and 12", stereo(left(2, rate=0), right(3, rate=0)), "9", ending),
        load_both("12 and 13", stereo(left(long, b""), right(2)), "12", ending),
        load_both("12 and 23", stereo(left(2), right(2), left(2, coefficients=1), right(3)), "12", ending),
    ])


def entries():
    yield from opening_and_reading()
    yield from loading()
    yield from hearing_the_block()
    yield from same_in_both()
