"""The commands `judge`, `watch`, `draw`, `complete`, `range`, `family`, `fit`, `certify` and
`page`, as ./pertxogai calls them. Each imports what it needs once it is called."""
from __future__ import annotations

import argparse
import errno
import io
import os
import sys
from collections.abc import Callable, Sequence
from fractions import Fraction
from pathlib import Path
from typing import TypeAlias

from pertxogai import __version__
from pertxogai.board.command import add_page
from pertxogai.commands.statuses import epilog
from pertxogai.exits import CommandError, Exit
from pertxogai.files.contents import FileRefusal
from pertxogai.files.kinds import InputRefused
from pertxogai.files.printable import printable
from pertxogai.judging import TextRefused
from pertxogai.judging.measure import Limit
from pertxogai.judging.measure.limit import DEFAULT, MOST as MOST_LIMIT
from pertxogai.output.release import Release
from pertxogai.program import ProgramError

EPILOG = "`pertxogai COMMAND --help` says what a command takes, and its exit status."
AS_STORED = "also report how far the positions in the file are off each constraint"
CHECK = "check it by sketch verify, sketch_claim.py and sketch_claim.c"
COMPLETED = "write the completed drawing as a .drawing, or into a copy of the .FCStd or .slvs"
CLAIM = "the claim to write: the sketch, its steps, positions and tolerances, as verify reads them"
DRAWING = "a drawing: .drawing, .FCStd, .slvs, .dxf"
FILE = "a sketch: .sketch, .drawing, .FCStd, .slvs, .dxf"
CHART = "a chart of how much each dimension contributes, as SVG"
FITTED = "a .drawing with tolerances and checks"
FREEZE = "fix lengths and radii that have no dimension at their drawn values"
JOBS = "how many {} at a time (default: as many as processors)"
NAMES = "values or dimensions, by name or as `judge` calls them (default: all)"
FOLDER = "where to write the table of verdicts and the drawings (default: print the table)"
PART = "only every N-th line of the table, beginning with the K-th"
SIZES = "a table with a line for each variant and a column for each value; - for standard input"
NEARLY = "also list relations that the drawing nearly has, such as horizontal edges, equal lengths"
NO_SEARCH = "leave out what is found by numbers about what isn't fully constrained"
OUTPUT = "the file to write: OUT.svg or OUT.dxf"
RELEASE = "the version of DXF (default: %(default)s)"
SCALE = "draw the SVG in mm to print: 1:1 is life-size, 1:2 half of it"
SKETCH = "the sketch to take from a file that has several"
SECONDS = "the time limit of a call of the program (default: %(default)g)"
WITHIN = "the limit within which a constraint counts as met, in nm and ppb (default: %(default)s)"
WRITE = "copy a .FCStd or .slvs to OUT, with each good sketch moved to its solved position"
FULL = frozenset({errno.ENOSPC, errno.EDQUOT, errno.EFBIG, errno.EIO})
"""What the system says where a device takes no more."""
Commands: TypeAlias = "argparse._SubParsersAction[argparse.ArgumentParser]"


def main(words: Sequence[str] | None = None) -> int:
    """Does what the words ask for, and returns the exit status."""
    if isinstance(sys.stdout, io.TextIOWrapper):
        sys.stdout.reconfigure(errors="backslashreplace")
    try:
        return _done(sys.argv[1:] if words is None else words)
    except (CommandError, FileRefusal, InputRefused) as error:
        return _complain(error, Exit.BAD_INPUT)
    except ProgramError as error:
        return _complain(error, Exit.NO_ANSWER)
    except BrokenPipeError:
        _drop_output()
        return Exit.BAD_INPUT
    except OSError as error:
        if error.errno not in FULL or error.filename is not None:
            raise
        _drop_output()
        return _complain(f"the answer can't be written: {error.strerror}", Exit.BAD_INPUT)
    except KeyboardInterrupt:
        return 130


def _done(words: Sequence[str]) -> Exit:
    """Does what the words ask for, and writes all of the answer."""
    try:
        options = command_line(*words[:1]).parse_args(words)
    finally:  # The help and the version are printed by now, and end Python.
        print(end="", flush=True)
    act: Callable[[argparse.Namespace], Exit] = options.act
    try:
        status = act(options)
    except TextRefused as refused:
        return _complain(f"{options.file}: {refused.told}", Exit.BAD_INPUT)
    print(end="", flush=True)
    return status


def _drop_output() -> None:
    """Has what is still to be written go nowhere, since Python writes it at its end."""
    os.dup2(os.open(os.devnull, os.O_WRONLY), sys.stdout.fileno())


def _complain(error: Exception | str, status: Exit) -> Exit:
    print(f"pertxogai: {printable(' '.join(str(error).split()))}", file=sys.stderr)
    return status


def command_line(command: str | None = None) -> argparse.ArgumentParser:
    """The reader of the words of all commands, or of one alone, which is made quicker."""
    parser = argparse.ArgumentParser(
        prog="pertxogai",
        epilog=EPILOG,
        description="Judges, places and draws sketches, by the proved program `sketch`.",
    )
    parser.add_argument("--version", action="version", version=f"pertxogai {__version__}")
    commands = parser.add_subparsers(dest="command", required=True, metavar="COMMAND")
    adders = {"judge": _add_judge, "watch": _add_watch, "draw": _add_draw,
              "complete": _add_complete, "range": _add_range, "family": _add_family,
              "fit": _add_fit, "certify": _add_certify, "page": add_page}
    for add in [adders[command]] if command in adders else adders.values():
        add(commands)
    return parser


def _add_judge(commands: Commands) -> None:
    judge = _command(commands, "judge", "judges sketches, and says in your own names what to do")
    judge.set_defaults(act=_judge)
    _add_freeze(judge)
    judge.add_argument("file", type=Path, nargs="+", metavar="FILE", help=FILE)
    _add_jobs(judge, "files are judged")
    judge.add_argument("--json", action="store_true", help="print one object of JSON for each file")
    judge.add_argument("--write", type=Path, metavar="OUT", help=WRITE)
    _add_more(judge)


def _add_watch(commands: Commands) -> None:
    watch = _command(commands, "watch", "judges a file now, and each time that it is saved")
    watch.set_defaults(act=_watch, json=False, write=None)
    _add_freeze(watch)
    watch.add_argument("file", type=Path, metavar="FILE", help=FILE)
    _add_more(watch)


def _add_more(parser: argparse.ArgumentParser) -> None:
    """Adds what more or less is told of a judged file."""
    parser.add_argument("--no-search", action="store_true", help=NO_SEARCH)
    parser.add_argument("--nearly", action="store_true", help=NEARLY)
    parser.add_argument("--as-stored", action="store_true", help=AS_STORED)


def _add_draw(commands: Commands) -> None:
    draw = _command(commands, "draw", "draws a sketch as SVG or DXF")
    draw.set_defaults(act=_draw)
    _add_freeze(draw)
    draw.add_argument("file", type=Path, metavar="FILE", help=FILE)
    draw.add_argument("-o", "--output", type=Path, required=True, metavar="OUT", help=OUTPUT)
    draw.add_argument("--as-drawn", action="store_true", help="draw it as drawn, not as placed")
    draw.add_argument("--scale", type=_scale_of, metavar="N:M", help=SCALE)
    draw.add_argument("--sketch", metavar="NAME", help=SKETCH)
    releases = [it.value for it in Release]
    draw.add_argument("--release", choices=releases, default=releases[-1], help=RELEASE)
    draw.add_argument("--no-search", action="store_true", help=NO_SEARCH)


def _add_complete(commands: Commands) -> None:
    completing = _command(commands, "complete",
                          "proposes the missing dimensions of a sketch, in your own words")
    completing.set_defaults(act=_complete)
    completing.add_argument("file", type=Path, metavar="FILE", help=DRAWING)
    completing.add_argument("--json", action="store_true", help="print one object of JSON")
    completing.add_argument("-o", "--output", type=Path, metavar="OUT", help=COMPLETED)
    completing.add_argument("--sketch", metavar="NAME", help=SKETCH)


def _add_range(commands: Commands) -> None:
    ranging = _command(commands, "range",
                       "says how far each value and dimension can go, and why no further")
    ranging.set_defaults(act=_range)
    ranging.add_argument("file", type=Path, metavar="FILE", help=DRAWING)
    ranging.add_argument("names", nargs="*", metavar="NAME", help=NAMES)
    ranging.add_argument("--json", action="store_true", help="print one object of JSON")
    ranging.add_argument("--sketch", metavar="NAME", help=SKETCH)


def _add_family(commands: Commands) -> None:
    family = _command(commands, "family",
                      "judges and draws one drawing in many sizes, those of a table")
    family.set_defaults(act=_family)
    family.add_argument("file", type=Path, metavar="FILE", help=DRAWING)
    family.add_argument("sizes", type=Path, metavar="SIZES.csv", help=SIZES)
    family.add_argument("-o", "--output", type=Path, metavar="FOLDER", help=FOLDER)
    family.add_argument("--svg", action="store_true", help="write each variant to NAME.svg")
    family.add_argument("--dxf", action="store_true", help="write each good variant to NAME.dxf")
    family.add_argument("--copy", action="store_true",
                        help="copy the file, with the values of each good variant, to NAME")
    family.add_argument("--part", type=_part, default="1/1", metavar="K/N", help=PART)
    _add_jobs(family, "variants are judged")
    family.add_argument("--sketch", metavar="NAME", help=SKETCH)


def _add_fit(commands: Commands) -> None:
    fitting = _command(commands, "fit",
                       "says whether the checks of a drawing fit within its tolerances")
    fitting.set_defaults(act=_fit)
    fitting.add_argument("file", type=Path, metavar="FILE", help=FITTED)
    fitting.add_argument("--json", action="store_true", help="print one object of JSON")
    fitting.add_argument("-o", "--output", type=Path, metavar="OUT.svg", help=CHART)
    _add_jobs(fitting, "cases are placed")
    fitting.add_argument("--sketch", metavar="NAME", help=SKETCH)


def _add_certify(commands: Commands) -> None:
    certify = _command(commands, "certify", "writes a claim on a good sketch that anyone can check")
    certify.set_defaults(act=_certify, no_search=True)
    _add_freeze(certify)
    certify.add_argument("file", type=Path, metavar="FILE", help=FILE)
    certify.add_argument(
        "-o", "--output", type=Path, required=True, metavar="OUT.claim", help=CLAIM
    )
    certify.add_argument("--check", action="store_true", help=CHECK)
    certify.add_argument("--sketch", metavar="NAME", help=SKETCH)


def _add_freeze(parser: argparse.ArgumentParser) -> None:
    """Adds the option that takes as drawn what has no dimension."""
    parser.add_argument("--freeze", action="store_true", help=FREEZE)


def _add_jobs(parser: argparse.ArgumentParser, what: str) -> None:
    """Adds the option that says how many of these are done at a time."""
    at_once = os.cpu_count() or 1
    parser.add_argument("--jobs", type=int, default=at_once, metavar="N", help=JOBS.format(what))


def _command(commands: Commands, name: str, what: str) -> argparse.ArgumentParser:
    """The reader of the words that several commands take."""
    formatter = argparse.RawDescriptionHelpFormatter
    parser = commands.add_parser(
        name, help=what, description=what, epilog=epilog(name), formatter_class=formatter
    )
    parser.add_argument("--within", type=_limit, default=str(DEFAULT), metavar="N", help=WITHIN)
    parser.add_argument("--program", metavar="PATH", help="the program `sketch`")
    parser.add_argument("--seconds", type=float, default=60.0, help=SECONDS)
    parser.set_defaults(as_stored=False, nearly=False)
    return parser


def _scale_of(word: str) -> Fraction:
    """The scale of a picture: millimetres of paper for one of the drawing. Raises
    ArgumentTypeError."""
    parts = word.split(":")
    if len(parts) != 2 or not all(it.isascii() and it.isdigit() and len(it) < 5 for it in parts):
        raise argparse.ArgumentTypeError(f"{word!r} isn't a scale such as 1:2")
    paper, drawn = map(int, parts)
    if not (0 < paper <= 1000 and 0 < drawn <= 1000):
        raise argparse.ArgumentTypeError(f"{word!r}: a scale is from 1:1000 to 1000:1")
    return Fraction(paper, drawn)


def _limit(word: str) -> Limit:
    """The limit that a word tells. Raises ArgumentTypeError."""
    try:
        return Limit(int(word))
    except ValueError:
        raise argparse.ArgumentTypeError(
            f"{word!r} isn't a whole number from 1 to {MOST_LIMIT}") from None


def _part(word: str) -> object:
    """The share of a table that a word tells, as 3/64. Raises ArgumentTypeError."""
    from pertxogai.commands.variants import Part

    number, _, count = word.partition("/")
    if number.isdecimal() and count.isdecimal() and 1 <= int(number) <= int(count):
        return Part(int(number), int(count))
    raise argparse.ArgumentTypeError(f"{word!r} is no share of a table: write one as 3/64")


def _judge(options: argparse.Namespace) -> Exit:
    from pertxogai.commands.judging import judge_file

    if len(options.file) == 1:
        options.file = options.file[0]
        return judge_file(options.file, options)
    from pertxogai.commands.many import judge_files

    return judge_files(options)


def _watch(options: argparse.Namespace) -> Exit:
    from pertxogai.commands.watching import watch_file

    return watch_file(options)


def _draw(options: argparse.Namespace) -> Exit:
    from pertxogai.commands.drawing import draw

    return draw(options)


def _complete(options: argparse.Namespace) -> Exit:
    from pertxogai.commands.completing import complete_file

    return complete_file(options)


def _range(options: argparse.Namespace) -> Exit:
    from pertxogai.search import check_libraries

    check_libraries()
    from pertxogai.commands.range import tell_ranges

    return tell_ranges(options)


def _family(options: argparse.Namespace) -> Exit:
    from pertxogai.commands.family import judge_family

    return judge_family(options)


def _fit(options: argparse.Namespace) -> Exit:
    from pertxogai.commands.fitting import fit_file

    return fit_file(options)


def _certify(options: argparse.Namespace) -> Exit:
    from pertxogai.commands.certifying import certify

    return certify(options)
