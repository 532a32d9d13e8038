"""The command Certify: a claim that others can check, and what the checkers say of it, beside the
document."""
from __future__ import annotations

from collections.abc import Iterator
from dataclasses import dataclass
from pathlib import Path

from pertxogai.files.atomic import written_whole
from pertxogai.files.freecad import read_freecad
from pertxogai.judging import GoodJudgement
from pertxogai.judging.claims import Checked, checked, claim_of, scale_of
from pertxogai_freecad.judging import JudgedSketch
from pertxogai_freecad.trouble import NotGoodTrouble, Trouble, troubles


@dataclass(frozen=True)
class Certified:
    """What was written of a sketch: the claim, and its verification. scale: how many times as large
    as the sketch the claim is. is_over_earlier: whether files of these names were there before."""

    claim: Path
    verification: Path
    answers: tuple[Checked, ...]
    scale: int
    is_over_earlier: bool

    def lines(self) -> Iterator[str]:
        """What was written, in lines to read."""
        earlier = ", in place of earlier ones" if self.is_over_earlier else ""
        yield f"wrote {self.claim} and {self.verification}{earlier}"
        if self.scale > 1:
            yield f"  the sketch of the claim is {self.scale} times as large as the drawing"
        yield from (f"  {each.checker}: {each.line}" for each in self.answers)

    def is_accepted(self) -> bool:
        """Whether each checker accepts the claim."""
        return all(each.accepts() for each in self.answers)


def certify(judged: JudgedSketch) -> Certified:
    """Writes the claim of a good sketch beside its document, and what the checkers say of it.
    Raises NotGoodTrouble where the sketch isn't good; Trouble where the document isn't saved with
    it, or nothing can be written."""
    if not judged.read.sketch.Document.FileName:
        raise Trouble("the document was never saved: save it, since the claim is written beside it")
    claim, verification = _names(judged)
    is_over_earlier = claim.exists() or verification.exists()
    if not isinstance(judged.good, GoodJudgement):
        earlier = f"; {claim.name} beside it is of an earlier state" if is_over_earlier else ""
        raise NotGoodTrouble(
            f"{judged.read.label} isn't good, so no claim is written: {judged.good}{earlier}")
    _check_saved(judged)
    with troubles():
        text = claim_of(judged.good, judged.program).text()
        answers = tuple(checked(text, judged.program))
    told = "".join(f"{each.checker}: {each.line}\n" for each in answers)
    document = Path(judged.read.sketch.Document.FileName)
    for path, content in ((claim, text), (verification, told)):
        with troubles(), written_whole(path, document) as file:
            file.write(content.encode("utf-8"))
    return Certified(claim, verification, answers, scale_of(judged.good), is_over_earlier)


def _names(judged: JudgedSketch) -> tuple[Path, Path]:
    """Where the claim and its verification go: beside the document."""
    document = Path(judged.read.sketch.Document.FileName)
    stem = f"{document.stem}-{judged.read.sketch.Name}"
    return document.with_name(f"{stem}.claim"), document.with_name(f"{stem}.verification")


def _check_saved(judged: JudgedSketch) -> None:
    """Raises Trouble where the document's file hasn't the sketch that was judged, since who has
    both takes the claim for one of the file."""
    sketch = judged.read.sketch
    with troubles():
        saved = {each.name: each.drawing for each in read_freecad(Path(sketch.Document.FileName))}
    if saved.get(sketch.Name) != judged.read.drawing:
        raise Trouble("the sketch isn't saved as it is: save the document, since the claim is "
                      "written beside it")
