"""Adds those dimensions that a drawing lacks whose first word is named, and keeps its text:
complete.py FILE OUT WORD .."""
import sys
from pathlib import Path

from pertxogai.completing import NoProposal, complete
from pertxogai.drawing import read_drawing
from pertxogai.files import with_lines
from pertxogai.program import Program

path, out, *words = sys.argv[1:]
text = Path(path).read_bytes()
found = complete(read_drawing(text.decode()), Program.find())
if isinstance(found, NoProposal):
    sys.exit(found.why.value)
lines = [each.line() for each in found.all()]
taken = [line for line in lines if line.split()[0] in words]
for line in lines:
    print("taken:" if line in taken else "left: ", line)
Path(out).write_bytes(with_lines(text, taken))
