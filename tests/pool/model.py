"""The frame pool by document 02's Card 4, as a list of sixteen holders; and what `pool` prints for a text of takes and gives."""
import re

FRAMES, SHARE, LONGEST = 16, 6, 4095
OTHER = {"A": "B", "B": "A"}


def serves(free, others):
    """"A take succeeds exactly when the free frames outnumber what the other decoder still lacks to six.\""""
    return free > max(0, SHARE - others)


class Pool:
    """"The spring model has sixteen frames, numbered 0 to 15, and decoders A and B." Who holds each; None holds a free one."""

    def __init__(self):
        self.holders = [None] * FRAMES

    def frames(self, who):
        return [n for n in range(FRAMES) if self.holders[n] == who]

    def take(self, who):
        """"It gets the highest-numbered free frame." "It refuses with 32 a take not served\""""
        free = self.frames(None)
        if not serves(len(free), len(self.frames(OTHER[who]))):
            return "STOP", 32
        self.holders[max(free)] = who
        return "FRAM", max(free)

    def give(self, who, n):
        """"and with 33 the return of a frame that the caller doesn't hold.\""""
        if n not in self.frames(who):
            return "STOP", 33
        self.holders[n] = None
        return "DONE",


def reachable():
    """The pairs of how many frames A and B hold, "For every list of takes and gives from a pool with all frames free\""""
    found, left = set(), [(0, 0)]
    while left:
        a, b = pair = left.pop()
        if pair in found:
            continue
        found.add(pair)
        left += [(a + 1, b)] * serves(FRAMES - a - b, b) + [(a, b + 1)] * serves(FRAMES - a - b, a) + [(a - 1, b)] * (a > 0) + [(a, b - 1)] * (b > 0)
    return found


def line_of(word, *numbers):
    """A word and its numbers, right-justified in 11 columns"""
    return word + "".join(f"{n:11}" for n in numbers) + "\n"


def counts_text():
    """What A's and B's takes are answered at each pair: 1 where they are served, else 0"""
    return "".join(line_of("HELD", a, b, serves(FRAMES - a - b, b), serves(FRAMES - a - b, a)) for a, b in sorted(reachable()))


# ---- Texts

def said(line):
    """TAKE and who, or GIVE, who and a number; None for what is neither. Words are apart by blanks, tabs and carriage returns, and by nothing else."""
    if len(line) > LONGEST:
        return None
    words = [word for word in re.split(rb"[ \t\r]", line) if word]
    if len(words) < 2 or words[1] not in (b"A", b"B"):
        return None
    if words[0] == b"TAKE" and len(words) == 2:
        return "TAKE", words[1].decode()
    if words[0] == b"GIVE" and len(words) == 3 and re.fullmatch(rb"[0-9]+", words[2]):
        return "GIVE", words[1].decode(), int(words[2])
    return None


def answers(text):
    """A line for each line, up to the first that is neither a take nor a give. A last line may lack its newline; nothing behind a newline is no line."""
    pool, made = Pool(), []
    lines = text.split(b"\n")
    if lines[-1] == b"":
        lines.pop()
    for number, line in enumerate(lines, 1):
        call = said(line)
        if call is None:
            made.append(line_of("LINE", number))
            break
        made.append(line_of(*(pool.take if call[0] == "TAKE" else pool.give)(*call[1:])))
    return "".join(made).encode()


def walk(steps, draw):
    """So many calls as `said` gives them, draw(n) being some number below n: for a while each decoder leans to takes or to gives, mostly of frames it holds."""
    pool = Pool()
    for i in range(steps):
        if i % 24 == 0:
            lean = {"A": draw(9), "B": draw(9)}
        who = "AB"[draw(2)]
        held = pool.frames(who)
        if draw(8) < lean[who]:
            pool.take(who)
            yield "TAKE", who
            continue
        n = held[draw(len(held))] if held and draw(8) else (draw(FRAMES), 16 + draw(2), 256 + draw(FRAMES), 2**32 + draw(FRAMES), 2**64 + draw(FRAMES))[draw(5)]
        pool.give(who, n)
        yield "GIVE", who, n
