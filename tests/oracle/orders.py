"""The Rust's order of refusals beside document 01's, and the differences between the two that docs/DIFFERENCES.md lists.

Document 01's orders are those of tests/cut/model.py. An order has each number and whether its rule is broken; the first that is, is due. What is not in
LISTED and differs is a disagreement, and so is an answer of the Rust that its own order does not give.
"""
import itertools
import os
import sys

sys.path.append(os.path.join(os.path.dirname(os.path.abspath(__file__)), "..", "cut"))
from model import Loader, begin_order, bytes_for, is_empty, samples, up

PUSH_ORDER = (26, 29, 25, 15, 22, 9, 12, 10, 13, 11, 23, 24, 14)


def broken(order):
    return tuple(number for number, is_broken in order if is_broken)


def first_of(order):
    """The number due, 0 where none is."""
    return (broken(order) + (0,))[0]


def rust_push(first, channels, left, right):
    """HpsWriter on a block: next_block_mono, next_block_stereo, Block::from_mono and from_stereo, expand_channel. `first` has the first block's sides, none
    at the first push; `right` is None where the right reader has ended (D17)."""
    if channels == 2 and right is None:
        return ((12, True),)
    used = (left, right)[:channels]
    bits = left.length * 4 % 2**64  # address_to_byte_up: the product wraps (D21)
    return (
        (15, any(side.rate != left.rate for side in used)),
        (22, first != () and left.rate != first[0].rate),
        (9, first == () and left.rate == 0),
        (12, any(side.length != left.length for side in used)),
        (13, (bits + 7) // 8 > 65536 // channels),
        (23, any(side.coefficients != one.coefficients for side, one in zip(used, first))))


def rust_cue(kind, length):
    """Cue::new_range; the Rust refuses no other cue."""
    return (("PANIC", kind == 2 and length == 0),)


# Document 01's number and the Rust's, 0 where it accepts: the entry of docs/DIFFERENCES.md.
LISTED = {
    **{(0, number): "D9" for number in (15, 22, 9, 23)},
    (10, 0): "D9, D10", (11, 0): "D11", (8, 0): "D12", (8, "PANIC"): "D13", (20, 0): "D14", (25, 0): "D15", (29, 12): "D17",
    (14, 0): "D18", (24, 0): "D18", (26, 0): "D18",
    (13, 0): "D21", (13, 23): "D21", (11, 23): "D22", (10, 23): "D23",
    **{(25, number): "D24" for number in (15, 22, 12, 13, 23)},
    **{(26, number): "D25" for number in (15, 22, 12, 13, 23)},
}


# What begin, a cue and finish can break at once. A finished stream has a last block, so that 26 comes with neither 27 nor 28.
TOGETHER = {
    "begin": ((3, 7), (3, 14), (7, 14), (3, 7, 14)),
    "cue": ((21, 8), (21, 20), (8, 20), (21, 8, 20)),
    "finish": ((26, 14), (27, 28), (27, 14), (28, 14), (27, 28, 14)),
}


def together(numbers, channels, later):
    """Whether a push can break these rules, in push's order, so that the first of them is due; `later` if a block has been pushed before it."""
    due = numbers[0]
    if not later and {26, 25, 22, 23} & {*numbers}:
        return False  # these go by an earlier push
    if later and due == 9:
        return False  # rate 0 is then another rate too, and 22 comes earlier
    if {10, 13} <= {*numbers}:
        return False  # no length is both
    two = 29 not in numbers if channels == 2 else due in (26, 29)  # in mono a push of two channels is refused with 29, if not 26
    return two or not {15, 12} & {*numbers}


def all_together():
    """The pairs and triples that can be broken at once: the call, of push also the channel count and whether it is a later one, and the rules."""
    made = {(call, *rules) for call, sets in TOGETHER.items() for rules in sets}
    for channels, later, count in itertools.product((1, 2), (False, True), (2, 3)):
        made |= {("push", channels, later, *rules) for rules in itertools.combinations(PUSH_ORDER, count) if together(rules, channels, later)}
    return made
