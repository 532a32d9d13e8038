"""Every answer of the program as a value, read by a grammar that accepts what docs/LANGUAGE.md says
and nothing else. `text()` of an answer, a fault or a reply is what the program writes, with a line
feed at the end of each line; that of a single element, constraint or place in it has none."""
from typing import TYPE_CHECKING

if TYPE_CHECKING:
    from pertxogai.language.refusal import Code, Refused
    from pertxogai.program.reports.answer import NoAnswer, read_answer
    from pertxogai.program.reports.check import CheckReport, Part, Verdict, read_check
    from pertxogai.program.reports.completed import (
        Lack, NoCompletion, read_complete, read_no_completion)
    from pertxogai.program.reports.derived import read_derive, write_derive
    from pertxogai.program.reports.dxf import (
        CircleEntity, Entity, LineEntity, PointEntity, read_dxf, write_dxf)
    from pertxogai.program.reports.excess import (
        ExcessReport, Excessive, Off, OverPart, Turned, read_excess)
    from pertxogai.program.reports.faults import (
        Cause, ConstraintFault, Fault, FrameFault, LineFault, NumberFault, Phase, RangeFault,
        StepAt, TurnedFault, Unit, read_fault)
    from pertxogai.program.reports.flips import Flipped, NoChoice, read_flips
    from pertxogai.program.reports.grown import Grown, read_grow
    from pertxogai.program.reports.measured import (
        Measured, MeasuredFault, MeasuredOff, Unplaced, read_measure)
    from pertxogai.program.reports.offers import (
        Idle, Offered, OffersReport, Stale, Taken, read_offers)
    from pertxogai.program.reports.parts import PartsReport, PlacedPart, read_parts
    from pertxogai.program.reports.plan import Branch, Leaf, Plan, read_plan
    from pertxogai.program.reports.refused import Usage, read_refusal, read_usage
    from pertxogai.program.reports.report import Report
    from pertxogai.program.reports.rows import NotAReport
    from pertxogai.program.reports.session import (
        Accepted, RefusedEdit, Reply, read_reply, read_session)
    from pertxogai.program.reports.solved import (
        AtConstraint, AtLine, Shape, Solved, Tolerances, read_solve)
    from pertxogai.program.reports.spare import Spare, read_spare, write_spare
    from pertxogai.program.reports.verified import ClaimFails, Failing, Verified, read_verify
    from pertxogai.program.reports.why import Follows, ReasonedPart, WhyReport, read_why
else:
    from pertxogai._later import handed_on

    __getattr__, __dir__ = handed_on(__name__, {
        "pertxogai.language.refusal": "Code Refused",
        ".answer": "NoAnswer read_answer",
        ".check": "CheckReport Part Verdict read_check",
        ".completed": "Lack NoCompletion read_complete read_no_completion",
        ".derived": "read_derive write_derive",
        ".dxf": "CircleEntity Entity LineEntity PointEntity read_dxf write_dxf",
        ".excess": "ExcessReport Excessive Off OverPart Turned read_excess",
        ".faults":
            "Cause ConstraintFault Fault FrameFault LineFault NumberFault Phase RangeFault "
            "StepAt TurnedFault Unit read_fault",
        ".flips": "Flipped NoChoice read_flips",
        ".grown": "Grown read_grow",
        ".measured": "Measured MeasuredFault MeasuredOff Unplaced read_measure",
        ".offers": "Idle Offered OffersReport Stale Taken read_offers",
        ".parts": "PartsReport PlacedPart read_parts",
        ".plan": "Branch Leaf Plan read_plan",
        ".refused": "Usage read_refusal read_usage",
        ".report": "Report",
        ".rows": "NotAReport",
        ".session": "Accepted RefusedEdit Reply read_reply read_session",
        ".solved": "AtConstraint AtLine Shape Solved Tolerances read_solve",
        ".spare": "Spare read_spare write_spare",
        ".verified": "ClaimFails Failing Verified read_verify",
        ".why": "Follows ReasonedPart WhyReport read_why"})

__all__ = ["Accepted", "AtConstraint", "AtLine", "Branch", "Cause", "CheckReport", "CircleEntity",
           "ClaimFails", "Code", "ConstraintFault", "Entity", "ExcessReport", "Excessive",
           "Failing", "Fault", "Flipped", "Follows", "FrameFault", "Grown", "Idle", "Lack", "Leaf",
           "LineEntity", "LineFault", "Measured", "MeasuredFault", "MeasuredOff", "NoAnswer",
           "NoChoice", "NoCompletion", "NotAReport", "NumberFault", "Off", "Offered",
           "OffersReport", "OverPart", "Part", "PartsReport", "Phase", "PlacedPart", "Plan",
           "PointEntity", "RangeFault", "ReasonedPart", "Refused", "RefusedEdit", "Reply", "Report",
           "Shape", "Solved", "Spare", "Stale", "StepAt", "Taken", "Tolerances", "Turned",
           "TurnedFault", "Unit", "Unplaced", "Usage", "Verdict", "Verified", "WhyReport",
           "read_answer", "read_check", "read_complete", "read_derive", "read_dxf", "read_excess",
           "read_fault", "read_flips", "read_grow", "read_measure", "read_no_completion",
           "read_offers", "read_parts", "read_plan", "read_refusal", "read_reply", "read_session",
           "read_solve", "read_spare", "read_usage", "read_verify", "read_why", "write_derive",
           "write_dxf", "write_spare"]
