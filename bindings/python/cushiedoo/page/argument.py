"""A lexicographic argument, path by path."""
from __future__ import annotations

from typing import Iterator, Sequence

from ..notation import MINUS, number_text
from ..packed import Argument, PathLoop
from ..sums import combined, path_targets
from .markup import Formulas, element, heading, paragraph
from .ranking import Failure, differs, marks_of
from .tables import labelled, sum_table


def argument_account(formulas: Formulas, loop: PathLoop, argument: Argument, failure: Failure) -> Iterator[str]:
    """The argument of kind 6: each path lowers its own component and raises no earlier one."""
    yield heading(3, "The components")
    items = []
    for component in argument.components:
        shown = formulas.formula(formulas.sum(component.rank))
        items.append(f"<li>{shown}, start {number_text(component.start)}, fall {number_text(component.fall)}</li>")
    yield element("ol", "".join(items), "components")
    yield paragraph("A step on a path must lower the component that the path belongs to, and raise none before it.")
    for path, rows in enumerate(loop.paths):
        part = argument.parts[path]
        own = argument.components[part.component]
        yield heading(3, f"Path {path + 1}, which belongs to component {part.component + 1}")
        for listed, ((number, target), weights) in enumerate(zip(path_targets(argument, path), part.lists)):
            total = combined(rows, weights, formulas.n)
            fails = failure if failure and (failure.place, failure.listed) == (path, listed) else None
            what = {51: "bounded", 52: "ranking"}.get(number, f"unaffecting, component {listed - 1}")
            yield paragraph(f"Take each row times its multiplier ({what}) and add.")
            yield sum_table(formulas, labelled(rows), weights, total, marks_of(fails) if fails else ())
            if fails:
                letter = {51: "start", 52: "fall"}.get(number)
                right = f", that is {MINUS}{letter} of the component" if letter else ""
                rank = formulas.sum(target.before, target.after)
                yield differs(formulas, fails, right if fails.spot is None else f", as in {formulas.formula(rank)}")
                return
            yield _path_follows(formulas, argument, number, listed, own.rank, target.right, total.right)
    yield paragraph(
        "Component 1 never rises, and each step on its own paths lowers it while it is at least its start. So those steps come to an end. "
        "From then on the same holds of the next component, and so on to the last. So no run goes on for ever.", "so")


def _path_follows(
    formulas: Formulas, argument: Argument, number: int, listed: int, own: Sequence[int], most: int, right: int
) -> str:
    enough = "" if right == most else f" The right side, {number_text(right)}, is at most {number_text(most)}."
    if number == 51:
        shown, does = own, f"is at least {number_text(-most)} before a step on this path"
    elif number == 52:
        shown, does = own, f"falls by at least {number_text(-most)}"
    else:
        shown, does = argument.components[listed - 2].rank, "does not rise"
    return paragraph(f"{enough} So {formulas.formula(formulas.sum(shown))} {does}.".strip(), "that")


ORDERED = (
    "Each step lowers the component of its path and raises none before it. So no run through the paths goes on for ever. "
    "How many steps a run takes is not told."
)
