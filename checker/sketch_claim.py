#!/usr/bin/env python3
"""Checks a claim about a sketch by whole numbers alone: sketch_claim.py [--explain] [FILE], or standard input.

The input is a sketch up to its `end`, and behind it a claim: the steps of a construction, a place for each element, and
two tolerances. The answer is that of `sketch verify`, in the same words and with the same status:
    0  verified steps K length T nm angle W ppb     1  refused line N CODE word     9  verify fails WHAT

With --explain, lines before it say what was computed of each step, constraint and sign. Status 2 is for other words than
these, 3 where nothing can be read, 4 where nothing can be written. README.md says what an accepted claim means."""
import re
import sys
from collections import namedtuple
from itertools import combinations
from math import isqrt

# Drawn numbers are micrometres. Placed numbers are nanometres, but a line's normal is in parts per 10^9.
NM_PER_UM, SCALE = 1000, 10**9
CODES = ("header word shape name name-taken unknown kind number zero same drawn-flat variable-radius too-many-elements "
         "too-many-constraints line-too-long no-end after-end empty not-ascii too-long").split()  # of E1 to E20
NAME, CLUSTER_NAME = r"[A-Za-z][A-Za-z0-9_]{0,15}", r"[cs][1-9][0-9]{0,5}"


class Refused(Exception): """A line isn't one of the language: the code says why."""
class Fails(Exception): """The claim doesn't hold: what fails first."""
def require(fact, code):
    if not fact:
        raise Refused(code)


# Vectors. A turn to the left has a positive cross product: x points to the right and y points up.
def minus(p, q): return p[0] - q[0], p[1] - q[1]
def cross(p, q): return p[0] * q[1] - p[1] * q[0]
def dot(p, q): return p[0] * q[0] + p[1] * q[1]
def turn(p, q, r): return cross(minus(q, p), minus(r, p))
# Where the drawing leaves a sign open, it counts as plus. A placed sign may be 0, which is the sign of no drawing.
def drawn_sign(number): return 1 if number >= 0 else -1
def placed_sign(number): return (number > 0) - (number < 0)


# A point or circle is drawn at the place `at`; a directed line goes through `at`, and its direction is `way`.
Element = namedtuple("Element", "kind name at way radius")
# apart: two elements are `size` apart.  height: the first is `size` from the second, a line, on the side `sign`.
# angle: two lines have the angle whose tangent is the fraction `ratio`, with the sense `sign`.
# block: pins lie towards each other as the places `given`, and `sign` is the turn of its three pins `turning`, if any.
Constraint = namedtuple("Constraint", "kind elements size ratio sign given turning", defaults=(0, (), 1, (), ()))
# A step joins three clusters, each two of which share an element, keeps one where it lies, and takes a choice.
Step = namedtuple("Step", "name joined shared kept choice")


def words_of(line, has_comments):
    """The words between blanks. In a sketch of version 2 a `#` begins a comment, and behind the sketch it doesn't."""
    require(len(line) <= 200, "E15")
    require(re.fullmatch(rb"[\x20-\x7e\t]*", line), "E19")
    text = line.decode("ascii")
    return (text.split("#", 1)[0] if has_comments else text).split()


def millimetres(word, least=-10**9):
    """The micrometres of a number of millimetres, at most 1,000,000 mm. A length isn't below 0; that it isn't 0 is asked
    later, since that has another code."""
    match = re.fullmatch(r"(-?)([0-9]{1,7})(?:\.([0-9]{1,3}))?", word)
    require(match, "E8")
    size = int(match[1] + "1") * (int(match[2]) * 1000 + int((match[3] or "").ljust(3, "0")))
    require(least <= size <= 10**9, "E8")
    return size


def ratio_of(word):
    match = re.fullmatch(r"(-?[0-9]{1,5})/([0-9]{1,5})", word)
    require(match and abs(int(match[1])) <= 10000 and int(match[2]) <= 10000, "E8")
    return int(match[1]), int(match[2])


def whole(word, least, most):
    """A whole number of a claim."""
    require(re.fullmatch(r"-?[0-9]{1,19}", word) and least <= int(word) <= most, "E8")
    return int(word)


# How many words the line of an element has, and the kinds of elements that a constraint takes: for `on` in the order of
# the line, else in alphabetical order, since the line may have them in either.
ELEMENT_WORDS = {"point": 4, "circle": 5, "line": 6}
KINDS = {"distance": "circle circle, circle point, point point, circle line, line point", "tangent": "circle line",
         "on": "point line, circle line, point circle", "outside": "circle circle", "inside": "circle circle",
         "angle": "line line"}


class Sketch:
    """The elements and constraints of a text, each numbered from 1 in the order of its line, and kept from 0 here."""
    def __init__(self, version):
        self.version, self.elements, self.constraints, self.numbers = version, [], [], {}

    def read(self, line):
        """Reads a line behind the header. Answers whether it was the `end`."""
        words = words_of(line, has_comments=self.version == 2)
        if not words: return False
        first, rest = words[0], words[1:]
        is_block = first == "block" and self.version == 2
        require(first in ELEMENT_WORDS or first in KINDS or first == "end" or is_block, "E2")
        require(first != "circle" or len(words) != 4, "E12")
        if first == "end":
            require(not rest, "E3")
            require(self.elements, "E18")
        elif first in ELEMENT_WORDS:
            self.add_element(first, rest)
        else:
            self.constraints.append(self.block(rest) if is_block else self.constraint(first, rest))
            require(len(self.constraints) <= 4000, "E14")
        return first == "end"

    def add_element(self, kind, rest):
        require(len(rest) + 1 == ELEMENT_WORDS[kind], "E3")
        require(re.fullmatch(NAME, rest[0]), "E4")
        require(rest[0] not in self.numbers, "E5")
        at = millimetres(rest[1]), millimetres(rest[2])
        radius = millimetres(rest[3], least=0) if kind == "circle" else 0
        way = minus((millimetres(rest[3]), millimetres(rest[4])), at) if kind == "line" else None
        require(kind != "circle" or radius > 0, "E9")
        require(way != (0, 0), "E11")
        require(len(self.elements) < 2000, "E13")
        self.numbers[rest[0]] = len(self.elements)
        self.elements.append(Element(kind, rest[0], at, way, radius))

    def look_up(self, names):
        """The numbers of elements. All words are looked at as names before any is sought."""
        require(all(re.fullmatch(NAME, name) for name in names), "E4")
        require(all(name in self.numbers for name in names), "E6")
        return [self.numbers[name] for name in names]

    def constraint(self, rule, rest):
        require(len(rest) == (3 if rule in ("distance", "angle") else 2), "E3")
        u, v = self.look_up(rest[:2])
        one, other = self.elements[u], self.elements[v]
        kinds = [one.kind, other.kind] if rule == "on" else sorted([one.kind, other.kind])
        require(" ".join(kinds) in KINDS[rule].split(", "), "E7")
        length = millimetres(rest[2], least=0) if rule == "distance" else 1
        ratio = ratio_of(rest[2]) if rule == "angle" else (1, 0)
        require(length and ratio[0] and (rule != "inside" or one.radius != other.radius), "E9")
        require(u != v, "E10")
        if rule == "angle":
            sense = ratio[1] * dot(one.way, other.way) + ratio[0] * cross(one.way, other.way)
            return Constraint("angle", [u, v], ratio=ratio, sign=drawn_sign(sense))
        # else they touch from outside, where the radius of a line is 0
        sizes = {"distance": length, "on": other.radius, "inside": abs(one.radius - other.radius)}
        size = sizes.get(rule, one.radius + other.radius)
        if "line" not in kinds:
            return Constraint("apart", [u, v], size)
        if one.kind == "line":
            u, v, one, other = v, u, other, one
        side = 1 if rule == "on" else drawn_sign(cross(other.way, minus(one.at, other.at)))
        return Constraint("height", [u, v], size, sign=side)

    def block(self, rest):
        require(len(rest) % 3 == 0 and 2 <= len(rest) // 3 <= 16, "E3")
        pins = self.look_up(rest[::3])
        require(all(self.elements[pin].kind != "line" for pin in pins), "E7")
        given = [(millimetres(x), millimetres(y)) for x, y in zip(rest[1::3], rest[2::3])]
        require(len(set(given)) == len(given), "E9")
        require(len(set(pins)) == len(pins), "E10")
        # its sign is the turn of its first three pins whose given places don't lie on one line
        turns = ((three, turn(*(given[i] for i in three))) for three in combinations(range(len(pins)), 3))
        turning, number = next((found for found in turns if found[1]), ((), 0))
        return Constraint("block", pins, sign=drawn_sign(number), given=given, turning=turning)


CLAIM_WORDS = {"step": (13, 14), "point": (4,), "circle": (5,), "line": (5,), "tolerance": (3,)}
CHOICES = ["none", "turn +", "turn -", "advance +", "advance -"]
MOST = {"point": [2**60] * 2, "circle": [2**60] * 3, "line": [2 * SCALE, 2 * SCALE, 2**60]}


class Claim:
    """The steps, the numbers of each element that has a line, and the two tolerances, once they came."""
    def __init__(self, sketch):
        self.sketch, self.steps, self.placed, self.tolerances = sketch, [], {}, None

    def read(self, line):
        words = words_of(line, has_comments=False)
        if not words: return
        require(self.tolerances is None, "E17")
        require(words[0] in CLAIM_WORDS, "E2")
        require(len(words) in CLAIM_WORDS[words[0]], "E3")
        if words[0] == "step":
            choice = " ".join(words[12:])
            require([words[2], words[6], words[10]] == ["joins", "at", "keeps"] and choice in CHOICES, "E2")
            require(all(re.fullmatch(CLUSTER_NAME, name) for name in [words[1], *words[3:6], words[11]]), "E4")
            self.steps.append(Step(words[1], words[3:6], self.sketch.look_up(words[7:10]), words[11], choice))
        elif words[0] == "tolerance":
            self.tolerances = [whole(word, 0, 2**62) for word in words[1:]]
        else:
            number, = self.sketch.look_up(words[1:2])
            require(self.sketch.elements[number].kind == words[0], "E7")
            numbers = [whole(word, -most, most) for word, most in zip(words[2:], MOST[words[0]])]
            require(number not in self.placed, "E5")
            self.placed[number] = numbers


def name_order(name):
    """Names of clusters rise so: each c before each s, and of one letter the lesser number first."""
    return name[0] == "s", int(name[1:])


def choice_number(sketch, shared, place, way):
    """The word of a choice, and the number whose sign it has: the turn of three points, or the advance of two points
    along a line, in the order of their numbers. A point and two lines leave nothing open."""
    points = sorted(number for number in shared if sketch.elements[number].kind != "line")
    if len(points) == 3:
        return "turn", turn(*map(place, points))
    if len(points) == 2:
        line, = set(shared) - set(points)
        return "advance", dot(way(line), minus(place(points[1]), place(points[0])))
    return "none", 0


def is_legal(sketch, clusters, step, name):
    """A step has its name; its three clusters stand, and their names fall; each two of them share one element alone;
    these three differ, and aren't all lines; it keeps the cluster with most elements, of several the one with the least
    name; and it takes the choice of the drawing."""
    (one, two, three), drawn = step.joined, sketch.elements
    if step.name != name or not name_order(one) > name_order(two) > name_order(three) or {*step.joined} - {*clusters}:
        return False
    meetings = [clusters[it] & clusters[other] for it, other in ((one, two), (two, three), (three, one))]
    is_firm = len(set(step.shared)) == 3 and any(drawn[number].kind != "line" for number in step.shared)
    kept = min(step.joined, key=lambda cluster: (-len(clusters[cluster]), name_order(cluster)))
    if meetings != [{number} for number in step.shared] or not is_firm or step.kept != kept:
        return False
    word, number = choice_number(sketch, step.shared, lambda i: drawn[i].at, lambda i: drawn[i].way)
    return step.choice == (word if word == "none" else word + (" +" if drawn_sign(number) > 0 else " -"))


def check_steps(sketch, claim, explain):
    """At first each constraint is a cluster of its elements. Each step makes one of three. One remains, with all."""
    clusters = {f"c{number}": set(it.elements) for number, it in enumerate(sketch.constraints, 1)}
    for number, step in enumerate(claim.steps, 1):
        if not is_legal(sketch, clusters, step, f"s{number}"):
            raise Fails(f"s{number}")
        clusters[step.name] = set().union(*(clusters.pop(name) for name in step.joined))
        explain(f"{step.name} joins {' '.join(step.joined)} to {len(clusters[step.name])} elements, {step.choice}")
    if [len(it) for it in clusters.values()] != [len(sketch.elements)] and (clusters or len(sketch.elements) > 1):
        raise Fails("parts")


def holds(it, spots, length, angle):
    """Whether a constraint holds at claimed places within so many nm and ppb; and what was computed."""
    if it.kind == "height":
        (x, y, *_), (a, b, c) = spots
        off = it.sign * (a * x + b * y - SCALE * c) - it.size * NM_PER_UM * SCALE
        return abs(off) <= length * SCALE, f"the height is {off} / 10^9 nm too much"
    if it.kind == "angle":
        p, q = it.ratio
        off, unit = q * cross(*spots) - p * dot(*spots), SCALE * (abs(p) + abs(q))
        return abs(off) <= angle * unit, f"the angle is {off} / {unit} ppb off"
    good, squares = True, []
    for (p, given_p), (q, given_q) in combinations(zip(spots, it.given or [(0, 0), (it.size, 0)]), 2):
        # the given distance lies between two whole numbers of nanometres, or is one
        given = NM_PER_UM**2 * dot(minus(given_p, given_q), minus(given_p, given_q))
        squares.append(dot(minus(p, q), minus(p, q)))
        good &= max(isqrt(given) - length, 0) ** 2 <= squares[-1] <= (isqrt(given - 1) + 1 + length) ** 2
    return good, f"the distances have the squares {squares} nm2"


def check_places(sketch, claim, explain):
    """Each element has a line, and each circle its radius. Each normal has the length 1, by its square. Each constraint
    holds."""
    for number, it in enumerate(sketch.elements):
        if number not in claim.placed or (it.radius and claim.placed[number][2] != it.radius * NM_PER_UM):
            raise Fails(f"element {it.name}")
    length, angle = claim.tolerances
    for number, it in enumerate(sketch.elements):
        if it.kind == "line":
            off = dot(claim.placed[number], claim.placed[number]) - SCALE**2
            explain(f"line {it.name}: the square of the normal is {off} / 10^9 ppb too much")
            if abs(off) > angle * SCALE:
                raise Fails(f"line {it.name}")
    for number, it in enumerate(sketch.constraints, 1):
        good, said = holds(it, [claim.placed[element] for element in it.elements], length, angle)
        explain(f"c{number}: {said}")
        if not good:
            raise Fails(f"c{number}")


def check_signs(sketch, claim, explain):
    """Each angle and block, and then each step, has the drawn sign. A placed line runs in the direction (b, -a)."""
    signs, placed = [], claim.placed
    for number, it in enumerate(sketch.constraints, 1):
        spots = [placed[element] for element in it.elements]
        if it.kind == "angle":
            signs.append((f"c{number}", it.sign, it.ratio[1] * dot(*spots) + it.ratio[0] * cross(*spots)))
        elif it.turning:
            signs.append((f"c{number}", it.sign, turn(*(spots[i] for i in it.turning))))
    for step in claim.steps:
        word, number = choice_number(sketch, step.shared, placed.get, lambda i: (placed[i][1], -placed[i][0]))
        signs += [(step.name, int(step.choice[-1] + "1"), number)] if word != "none" else []
    for name, drawn, number in signs:
        explain(f"{name}: drawn {drawn:+d}, placed {placed_sign(number):+d}")
        if placed_sign(number) != drawn:
            raise Fails(f"sign {name}")


def read_all(lines):
    """The sketch and the claim. What came before a line says whether it is the header, the sketch's or the claim's."""
    sketch = claim = None
    for number, line in enumerate(lines, 1):
        try:
            if claim:
                claim.read(line)
            elif sketch:
                claim = Claim(sketch) if sketch.read(line) else None
            elif words := words_of(line, has_comments=False):
                require(words in (["sketch", "1"], ["sketch", "2"]), "E1")
                sketch = Sketch(int(words[1]))
        except Refused as refused:
            raise Refused(*refused.args, number) from None
    if not claim or not claim.tolerances:
        raise Refused("E16", len(lines) + 1)
    return sketch, claim


def answer(data, explain=lambda said: None):
    """The status and the line that answers the bytes of an input."""
    # a line ends at a line feed, and one carriage return before it is no part of it; an empty last piece is no line
    lines = [piece.removesuffix(b"\r") for piece in data.removesuffix(b"\n").split(b"\n")] if data else []
    try:
        if len(data) > 2**20:
            raise Refused("E20", 0)
        if all(len(line) <= 200 and not line.strip(b" \t") for line in lines):
            raise Refused("E18", 0)
        sketch, claim = read_all(lines)
        for check in (check_steps, check_places, check_signs):
            check(sketch, claim, explain)
    except Refused as refused:
        code, number = refused.args
        return 1, f"refused line {number} {code} {CODES[int(code[1:]) - 1]}"
    except Fails as failure:
        return 9, f"verify fails {failure}"
    return 0, "verified steps {} length {} nm angle {} ppb".format(len(claim.steps), *claim.tolerances)


if __name__ == "__main__":
    files = sys.argv[2:] if sys.argv[1:2] == ["--explain"] else sys.argv[1:]
    if len(files) > 1 or files and files[0].startswith("-"):
        print("usage: sketch_claim.py [--explain] [FILE]", file=sys.stderr)
        sys.exit(2)
    try:
        data = (open(files[0], "rb") if files else sys.stdin.buffer).read(2**20 + 1)
    except (OSError, AttributeError): sys.exit(3)  # a standard input that is closed has no buffer
    try:
        status, line = answer(data, print if "--explain" in sys.argv[1:2] else lambda said: None)
        print(line, flush=True)
    except OSError: status, sys.stdout = 4, None  # so that Python doesn't write the rest at its end
    sys.exit(status)
