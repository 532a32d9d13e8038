"""The sketch language as values: every line of docs/LANGUAGE.md, and the texts made of them.
`text()` of a whole text (Sketch, Flips, Offers, Claim, Given, Session) ends with a line feed; that
of a line has none."""
from typing import TYPE_CHECKING

if TYPE_CHECKING:
    from pertxogai.language.claim import Claim
    from pertxogai.language.clusters import Choice, ClusterName, Step
    from pertxogai.language.constraints import (
        Angle, Block, BlockPlace, Constraint, Distance, Inside, On, Outside, Tangent)
    from pertxogai.language.elements import Circle, Element, Line, Point
    from pertxogai.language.flips import Flip, Flips
    from pertxogai.language.given import Given
    from pertxogai.language.names import NotAName, is_name
    from pertxogai.language.numbers import NotHeld, micrometres, mm_text, nearest_ratio
    from pertxogai.language.offers import Offer, Offers
    from pertxogai.language.places import Placed, PlacedCircle, PlacedLine, PlacedPoint
    from pertxogai.language.refusal import Code, Refusal, Refused
    from pertxogai.language.session import (
        Ask, Drop, Erase, Session, SessionLine, SetLength, SetRatio)
    from pertxogai.language.sketch import Sketch
else:
    from pertxogai._later import handed_on

    __getattr__, __dir__ = handed_on(__name__, {
        ".claim": "Claim",
        ".clusters": "Choice ClusterName Step",
        ".constraints": "Angle Block BlockPlace Constraint Distance Inside On Outside Tangent",
        ".elements": "Circle Element Line Point",
        ".flips": "Flip Flips",
        ".given": "Given",
        ".names": "NotAName is_name",
        ".numbers": "NotHeld micrometres mm_text nearest_ratio",
        ".offers": "Offer Offers",
        ".places": "Placed PlacedCircle PlacedLine PlacedPoint",
        ".refusal": "Code Refusal Refused",
        ".session": "Ask Drop Erase Session SessionLine SetLength SetRatio",
        ".sketch": "Sketch"})

__all__ = ["Angle", "Ask", "Block", "BlockPlace", "Choice", "Circle", "Claim", "ClusterName",
           "Code", "Constraint", "Distance", "Drop", "Element", "Erase", "Flip", "Flips", "Given",
           "Inside", "Line", "NotAName", "NotHeld", "Offer", "Offers", "On", "Outside", "Placed",
           "PlacedCircle", "PlacedLine", "PlacedPoint", "Point", "Refusal", "Refused", "Session",
           "SessionLine", "SetLength", "SetRatio", "Sketch", "Step", "Tangent", "is_name",
           "micrometres", "mm_text", "nearest_ratio"]
