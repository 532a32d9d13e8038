"""The judgement on a drawing or sketch, for designers and for scripts. A drawing (or a sketch) and
a `Solver` go in; a judgement comes out: the program's verdict in the drawing's names, the solved
positions, each constraint measured there, and what to do. `good` enforces by a type whether a part
may be cut by it."""
from typing import TYPE_CHECKING

if TYPE_CHECKING:
    from pertxogai.judging.cusps import Cusp
    from pertxogai.judging.departures import Departure, DepartureKind
    from pertxogai.judging.excess import Excess, Rest, TooMuch, too_much
    from pertxogai.judging.faults import Amount, Failure
    from pertxogai.judging.finding import Finding, Nearly, PlacesBy, PointMove
    from pertxogai.judging.good import (
        GoodJudgement, GoodSketch, NotGood, good_of, good_sketch_of, reasons_against)
    from pertxogai.judging.judged_drawing import CountedDrawing, JudgedDrawing
    from pertxogai.judging.judged_sketch import JudgedSketch, concerned, judge_sketch
    from pertxogai.judging.judgement import (
        CountedJudgement, Judgement, LeftOut, WeighedJudgement, judge, judge_at_once, weighed,
        with_choices, with_counts)
    from pertxogai.judging.limits import DrawingRefused, TextRefused
    from pertxogai.judging.missing import Joint, Missing, Piece, Tie
    from pertxogai.judging.naming import Names
    from pertxogai.judging.shortage import shortage_of
    from pertxogai.judging.surplus import Surplus, Then
    from pertxogai.judging.trials import PlaceBy, Question, Trial, first_good
else:
    from pertxogai._later import handed_on

    __getattr__, __dir__ = handed_on(__name__, {
        ".cusps": "Cusp",
        ".departures": "Departure DepartureKind",
        ".excess": "Excess Rest TooMuch too_much",
        ".faults": "Amount Failure",
        ".finding": "Finding Nearly PlacesBy PointMove",
        ".good": "GoodJudgement GoodSketch NotGood good_of good_sketch_of reasons_against",
        ".judged_drawing": "CountedDrawing JudgedDrawing",
        ".judged_sketch": "JudgedSketch concerned judge_sketch",
        ".judgement": "CountedJudgement Judgement LeftOut WeighedJudgement judge judge_at_once "
                      "weighed with_choices with_counts",
        ".limits": "DrawingRefused TextRefused",
        ".missing": "Joint Missing Piece Tie",
        ".naming": "Names",
        ".shortage": "shortage_of",
        ".surplus": "Surplus Then",
        ".trials": "PlaceBy Question Trial first_good"})

__all__ = ["Amount", "CountedDrawing", "CountedJudgement", "Cusp", "Departure", "DepartureKind",
           "DrawingRefused", "Excess", "Failure", "Finding", "GoodJudgement", "GoodSketch", "Joint",
           "JudgedDrawing", "JudgedSketch", "Judgement", "LeftOut", "Missing", "Names", "Nearly",
           "NotGood", "Piece", "PlaceBy", "PlacesBy", "PointMove", "Question", "Rest", "Surplus",
           "TextRefused", "Then", "Tie", "TooMuch", "Trial", "WeighedJudgement", "concerned",
           "first_good", "good_of", "good_sketch_of", "judge", "judge_at_once", "judge_sketch",
           "reasons_against", "shortage_of", "too_much", "weighed", "with_choices", "with_counts"]
