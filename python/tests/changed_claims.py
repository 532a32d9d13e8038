"""Claims that were true, with one thing changed: a digit, a word, a line, a tolerance, a side.

So most of them are no longer true, or no longer readable, and each checker has to say the same of
them."""
from __future__ import annotations

from collections.abc import Callable
from random import Random

Lines = list[str]

KNOWN = """point line circle on tangent outside inside angle block end step none turn advance
joins at keeps tolerance + - s1 c1 s2 1/0 -1/1 0/1 sketch 2 # Q""".split()
LIMITS = """1000000 1000000.001 -1000000 10000000 0.001 0.0001 -0 00 1. .5 +1 1e3 0000000.000
10000/10000 10001/1 -10000/1 1/10001 00001/00001 000001/1 1/-1 -0/1 0/0 1/ A234567890123456
A2345678901234567 _A A_ c999999 c1000000 c01 s999999 s0 c C1 1152921504606846976
1152921504606846977 -1152921504606846976 2000000000 2000000001 -2000000000 4611686018427387904
4611686018427387905 9999999999999999999 00000000000000000001 0000000000000000001""".split()
"""Each limit of the language, and the word just beyond it."""


def _digit(lines: Lines, random: Random) -> None:
    """Another digit in one word."""
    number, words = _some_line(lines, random)
    place = random.randrange(len(words))
    digits = [at for at, letter in enumerate(words[place]) if letter.isdigit()]
    at = random.choice(digits) if digits else 0
    words[place] = words[place][:at] + random.choice("0123456789") + words[place][at + 1 :]
    lines[number] = " ".join(words)


def _word(lines: Lines, random: Random) -> None:
    """Another word of the line, of the language, or at one of its limits."""
    number, words = _some_line(lines, random)
    words[random.randrange(len(words))] = random.choice(random.choice([words, KNOWN, LIMITS]))
    lines[number] = " ".join(words)


def _count(lines: Lines, random: Random) -> None:
    """A word more or less."""
    number, words = _some_line(lines, random)
    place = random.randrange(len(words))
    words[place : place + random.choice([0, 1])] = random.choice([[], [random.choice(KNOWN)]])
    lines[number] = " ".join(words)


def _line(lines: Lines, random: Random) -> None:
    """A line that goes, comes twice, or changes its place with another."""
    number, other = random.randrange(len(lines)), random.randrange(len(lines))
    way = random.randrange(3)
    if way == 0:
        del lines[number]
    elif way == 1:
        lines.insert(other, lines[number])
    else:
        lines[number], lines[other] = lines[other], lines[number]


def _sign(lines: Lines, random: Random) -> None:
    """A plus or minus turned over."""
    number, words = _some_line(lines, random)
    place = len(words) - 1 if words[-1] in ("+", "-") else random.randrange(len(words))
    words[place] = {"+": "-", "-": "+"}.get(words[place]) or _negative(words[place])
    lines[number] = " ".join(words)


def _negative(word: str) -> str:
    """A number's other sign."""
    return word[1:] if word.startswith("-") else "-" + word


def _bytes(lines: Lines, random: Random) -> None:
    """A line that is cut, padded to the longest or beyond it, or has a byte more, which may be a
    wrong one."""
    number = random.randrange(len(lines))
    cut = random.randrange(len(lines[number]) + 1)
    way = random.randrange(4)
    if way == 0:
        lines[number] = lines[number][:cut] + random.choice("#x\t 9-")
    elif way == 1:
        size = random.choice([199, 200, 201])
        lines[number] = lines[number].ljust(size, random.choice(" \t"))
    elif way == 2:
        size = random.choice([199, 200, 201])
        lines[number] = (lines[number] + " #").ljust(size, "-") + random.choice(["", "\r"])
    else:
        byte = random.choice("\x01\x00\x7f\x80\xff\r\v\f~#")
        lines[number] = lines[number][:cut] + byte + lines[number][cut:]


def _tolerance(lines: Lines, random: Random) -> None:
    """Tolerances one less or more, at their limits, or of any size."""
    words = lines[-1].split()
    place = random.choice([1, 2])
    size = int(words[place]) if words[place].isdigit() else 0
    any_size = 10 ** random.randint(1, 18)
    words[place] = str(random.choice([size - 1, size + 1, 0, any_size, 2**62, 2**62 + 1]))
    lines[-1] = " ".join(words)


def _side(lines: Lines, random: Random) -> None:
    """A claim that is mirrored, or has one place moved, with tolerances under which all but the
    signs holds."""
    placed = _claimed(lines, "point", "circle")
    for at in placed if random.random() < 0.5 else random.sample(placed, min(1, len(placed))):
        words = lines[at].split()
        words[3] = _negative(words[3])
        lines[at] = " ".join(words)
    lines[-1] = f"tolerance {random.choice([0, 10**9, 2**62])} {random.choice([0, 10, 2**62])}"


def _largest(lines: Lines, random: Random) -> None:
    """Places and normals as large as they may be, and tolerances within which they may hold."""
    for at in _claimed(lines, "point", "circle", "line"):
        words = lines[at].split()
        most = [2 * 10**9, 2 * 10**9, 2**60] if words[0] == "line" else [2**60, 2**60]
        words[2 : 2 + len(most)] = [str(size * random.choice([-1, 1])) for size in most]
        lines[at] = " ".join(words)
    lines[-1] = f"tolerance {2**62} {2**62}"


def _claimed(lines: Lines, *kinds: str) -> list[int]:
    """Where the lines of the claim stand that place elements of these kinds."""
    begin = next((at for at, line in enumerate(lines) if line.split()[:1] == ["end"]), 0)
    firsts = [[kind] for kind in kinds]
    return [at for at in range(begin, len(lines)) if lines[at].split()[:1] in firsts]


def _some_line(lines: Lines, random: Random) -> tuple[int, list[str]]:
    """The number of a line that has words, and the words."""
    number = random.choice([at for at, line in enumerate(lines) if line.split()])
    return number, lines[number].split()


CHANGES: list[Callable[[Lines, Random], None]] = [
    _digit, _digit, _word, _word, _count, _line, _sign, _bytes, _tolerance, _side, _side, _largest]


def changed(claim: str, random: Random) -> str:
    """A claim with one thing changed, and now and then another end of its lines."""
    lines = claim.splitlines()
    random.choice(CHANGES)(lines, random)
    feed = random.choice(["\n"] * 8 + ["\r\n"])
    ends = ["", feed + feed, feed + "\r", feed + " \t", feed + "#"]
    return feed.join(lines) + random.choice([feed] * 5 + ends)
