"""Files that are damaged, each by a seed: cut, with other bytes, lines that changed places, blocks that
come twice, numbers that are huge, elements that are nested deep."""
from __future__ import annotations

import io
import random
import re
import zipfile
from collections.abc import Callable
from dataclasses import dataclass
from functools import cache
from pathlib import Path

TESTS = Path(__file__).resolve().parents[1]
NUMBER = re.compile(rb"-?\d+(?:\.\d+)?(?:[eE][-+]?\d+)?")
NUMBERS = (b"0", b"-1", b"--5", b"1e308", b"-1e308", b"1e400", b"nan", b"inf", b"99999999999999999999",
           b"1e-320", b"-0", b"2147483648", b"", b"0x7f", b"1_000", "٣".encode(), b"1e9", b"123456789")
WORDS = (b"\x00", b"\x1b[31m", b"\xff\xfe", b"<![CDATA[", b"&amp;&lt;", b"\r\n", b"\n\n\n", b"\"", b"=")
ENCODINGS = (b"utf-7", b"utf-16", b"latin-1", b"nothing-8", b"cp037", b"utf-8-sig", b"punycode")


@dataclass(frozen=True)
class Sound:
    """A file that is sound: the ending of its name, and its bytes."""

    name: str
    suffix: str
    data: bytes


@cache
def stock() -> tuple[Sound, ...]:
    """The files that are damaged: those of FreeCAD and SolveSpace that the tests have, sketches,
    drawings, and drawings as DXF."""
    places = (*(TESTS / "files").glob("*.FCStd"), *(TESTS / "files").glob("*.slvs"),
              *(TESTS.parents[1] / "examples").glob("*.sketch"), *(TESTS / "drawings").glob("*.drawing"))
    kept = [Sound(path.name, path.suffix, path.read_bytes()) for path in sorted(places)]
    return (*kept, *outlines())


def outlines() -> list[Sound]:
    """Outlines as DXF of some versions; none where ezdxf is missing."""
    try:
        import ezdxf
    except ImportError:
        return []
    found = []
    for release in ("R12", "R2000", "R2010"):
        document = ezdxf.new(release)  # type: ignore[attr-defined]
        space = document.modelspace()
        space.add_circle((15, 20), 5)
        space.add_arc((40, 20), 8, 0, 90)
        space.add_line((0, 0), (60, 0))
        space.add_point((1, 2))
        if release != "R12":
            space.add_lwpolyline([(0, 0), (60, 0), (60, 40), (0, 40)], close=True)
        text = io.StringIO()
        document.write(text)
        found.append(Sound(f"outline-{release}.dxf", ".dxf", text.getvalue().encode()))
    return found


def damaged(seed: int) -> Sound:
    """The file of a seed."""
    chance = random.Random(seed)
    kind = chance.choice(sorted({each.suffix for each in stock()}))
    sound = chance.choice([each for each in stock() if each.suffix == kind])
    if kind == ".FCStd" and chance.random() < 0.8:
        return Sound(sound.name, kind, _within(sound.data, chance))
    return Sound(sound.name, kind, _hurt(sound.data, chance))


def _within(data: bytes, chance: random.Random) -> bytes:
    """A zip of which a member is damaged, and the zip isn't."""
    packed = io.BytesIO()
    with zipfile.ZipFile(io.BytesIO(data)) as archive:
        names = archive.namelist()
        hurt = "Document.xml" if chance.random() < 0.85 else chance.choice(names)
        with zipfile.ZipFile(packed, "w", zipfile.ZIP_DEFLATED) as out:
            for name in names:
                inside = archive.read(name)
                out.writestr(name, _hurt(inside, chance) if name == hurt else inside)
    return packed.getvalue()


def _hurt(data: bytes, chance: random.Random) -> bytes:
    """Some damages, one after the other."""
    for _ in range(chance.choice((1, 1, 1, 2, 3))):
        data = chance.choice(DAMAGES)(data, chance)
    return data


def _cut(data: bytes, chance: random.Random) -> bytes:
    return data[:chance.randint(0, len(data))]


def _torn(data: bytes, chance: random.Random) -> bytes:
    """Without a piece of the middle."""
    begin = chance.randint(0, len(data))
    return data[:begin] + data[begin + chance.choice((1, 10, 100, 1000)):]


def _flipped(data: bytes, chance: random.Random) -> bytes:
    hurt = bytearray(data)
    for _ in range(chance.choice((1, 2, 10)) if hurt else 0):
        hurt[chance.randrange(len(hurt))] = chance.randrange(256)
    return bytes(hurt)


def _swapped(data: bytes, chance: random.Random) -> bytes:
    lines = data.split(b"\n")
    first, second = chance.randrange(len(lines)), chance.randrange(len(lines))
    lines[first], lines[second] = lines[second], lines[first]
    return b"\n".join(lines)


def _doubled(data: bytes, chance: random.Random) -> bytes:
    """A block of lines comes again, now and then many times."""
    lines = data.split(b"\n")
    begin = chance.randrange(len(lines))
    block = lines[begin:begin + chance.choice((1, 3, 10, 40))]
    times = chance.choice((1, 1, 2, 20))
    return b"\n".join(lines[:begin] + block * times + lines[begin:])


def _huge(data: bytes, chance: random.Random) -> bytes:
    """Numbers that are others."""
    places = list(NUMBER.finditer(data))
    for _ in range(chance.choice((1, 1, 3)) if places else 0):
        place = chance.choice(places)
        data = data[:place.start()] + chance.choice(NUMBERS) + data[place.end():]
        places = list(NUMBER.finditer(data))
        if not places:
            break
    return data


def _spoken(data: bytes, chance: random.Random) -> bytes:
    """Words that don't belong there."""
    place = chance.randint(0, len(data))
    return data[:place] + chance.choice(WORDS) + data[place:]


def _nested(data: bytes, chance: random.Random) -> bytes:
    """Elements in elements, or lines that begin ever more."""
    place = data.find(b"\n", chance.randint(0, len(data))) + 1
    deep = chance.choice((10, 100, 3000))
    return data[:place] + b"<Property name=\"Geometry\">" * deep + data[place:]


def _encoded(data: bytes, chance: random.Random) -> bytes:
    """A text that says that it has another encoding."""
    return data.replace(b"utf-8", chance.choice(ENCODINGS), 1)


Damage = Callable[[bytes, random.Random], bytes]
DAMAGES: tuple[Damage, ...] = (_cut, _torn, _flipped, _swapped, _doubled, _huge, _huge, _huge, _spoken,
                               _nested, _encoded)
