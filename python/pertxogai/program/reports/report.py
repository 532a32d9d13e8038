"""What an answer of the program may be read as."""
from __future__ import annotations

from pertxogai.language.refusal import Refused
from pertxogai.language.sketch import Sketch
from pertxogai.program.reports.check import CheckReport
from pertxogai.program.reports.completed import NoCompletion
from pertxogai.program.reports.dxf import Entity
from pertxogai.program.reports.excess import ExcessReport
from pertxogai.program.reports.faults import Fault
from pertxogai.program.reports.flips import Flipped
from pertxogai.program.reports.grown import Grown
from pertxogai.program.reports.measured import Measured, Unplaced
from pertxogai.program.reports.offers import OffersReport
from pertxogai.program.reports.parts import PartsReport
from pertxogai.program.reports.plan import Plan
from pertxogai.program.reports.refused import Usage
from pertxogai.program.reports.session import Reply
from pertxogai.program.reports.solved import Solved
from pertxogai.program.reports.spare import Spare
from pertxogai.program.reports.verified import ClaimFails, Verified
from pertxogai.program.reports.why import WhyReport

Report = (
    CheckReport
    | Plan
    | Solved
    | PartsReport
    | ExcessReport
    | WhyReport
    | NoCompletion
    | Measured
    | Unplaced
    | OffersReport
    | Grown
    | Verified
    | ClaimFails
    | Sketch
    | Fault
    | Refused
    | Usage
    | tuple[Spare, ...]
    | tuple[Flipped, ...]
    | tuple[Entity, ...]
    | tuple[Reply, ...]
    | tuple[tuple[str, ...], ...]
)
"""What `read_answer` may return; for some commands several values."""
