"""The smallest input that still shows a disagreement: parts are left out as long as it does."""
import itertools
from dataclasses import replace

from loadings import EMPTY
from pushes import NUMBERS, WAYS, resized

TRIES = 3000


def smallest(found, smaller, disagrees):
    """`smaller` gives inputs to try in its place, the much smaller ones first."""
    tries = 0
    while True:
        for candidate in smaller(found):
            tries += 1
            if tries > TRIES:
                return found
            if disagrees(candidate):
                found = candidate
                break
        else:
            return found


def smaller_slots(slot):
    """The slot cut short, without some of its bytes, or with zeros for some."""
    size = len(slot)
    step = size // 2
    while step:
        yield slot[:size - step]
        step //= 2
    for width in (64, 32, 8, 4, 1):
        for at in range(0, size - width + 1, width):
            yield slot[:at] + slot[at + width:]
    for width in (32, 8, 1):
        for at in range(0, size, width):
            part = slot[at:at + width]
            if any(part):
                yield slot[:at] + bytes(len(part)) + slot[at + width:]


def without(items, i):
    return items[:i] + items[i + 1:]


def without_block(loading, i):
    """Refused pushes before a later block move up with it."""
    moved = tuple((place - (isinstance(place, int) and place > i), what) for place, what in loading.refused if place != i)
    return replace(loading, blocks=without(loading.blocks, i), pushes=loading.pushes - (i < loading.pushes), refused=moved)


def simpler(names):
    """With a rule less broken, or one of them in an earlier way."""
    for k, name in enumerate(names if names != EMPTY else ()):
        if len(names) > 1:
            yield without(names, k)
        for way in itertools.takewhile(lambda way: way != name, WAYS[NUMBERS[name]]):
            yield names[:k] + (way,) + names[k + 1:]


def smaller_loadings(loading):
    """The loading with fewer refused calls, empty pushes, cues and blocks, shorter blocks, less around them."""
    if loading.refused:
        yield replace(loading, refused=())
    for empty in (0, loading.empty / 2, loading.empty / 4):
        if empty < loading.empty:
            yield replace(loading, empty=empty)
    for i, (place, names) in enumerate(loading.refused):
        yield replace(loading, refused=without(loading.refused, i))
        for fewer in simpler(names):
            yield replace(loading, refused=loading.refused[:i] + ((place, fewer),) + loading.refused[i + 1:])
    if loading.cues:
        yield replace(loading, cues=())
    for i in range(len(loading.cues)):
        yield replace(loading, cues=without(loading.cues, i))
    half = len(loading.blocks) // 2
    if half > 2:
        yield replace(loading, blocks=loading.blocks[:half], pushes=half, refused=tuple(r for r in loading.refused if not isinstance(r[0], int) or r[0] < half))
    for i in range(len(loading.blocks) if len(loading.blocks) > 1 else 0):
        yield without_block(loading, i)
    for i, (left, right) in enumerate(loading.blocks):
        for length in (2, 16, 32):
            if length < left.length:
                yield replace(loading, blocks=loading.blocks[:i] + ((resized(left, length), resized(right, length)),) + loading.blocks[i + 1:])
    if loading.earlier != "zeros":
        yield replace(loading, earlier="zeros")
    if loading.spare:
        yield replace(loading, spare=0)
