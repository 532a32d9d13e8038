"""How far each value and each dimension of a good drawing can go: the range around its present
value in which the drawing stays fully constrained, placed and in its drawn orientation, and why it
ends on each side. The program judges each value that is tried; the values to try are found by
doubling and halving."""
from typing import TYPE_CHECKING

if TYPE_CHECKING:
    from pertxogai.ranging.faults import Fault, FaultKind
    from pertxogai.ranging.no_range import NoRange
    from pertxogai.ranging.range import End, Range
    from pertxogai.ranging.ranges import Ranging
else:
    from pertxogai._later import handed_on

    __getattr__, __dir__ = handed_on(__name__, {
        ".faults": "Fault FaultKind",
        ".no_range": "NoRange",
        ".range": "End Range",
        ".ranges": "Ranging",
    })

__all__ = ["End", "Fault", "FaultKind", "NoRange", "Range", "Ranging"]
