"""Tables of rows, as a textbook sets them: the multiplier beside each row, the combined row under a line."""
from __future__ import annotations

from typing import Sequence

from ..notation import number_text
from ..records import Row
from .markup import Formulas, Mark

Labelled = Sequence[tuple[str, Row]]


def labelled(rows: Sequence[Row], added: str = "") -> list[tuple[str, Row]]:
    """Rows with their labels (1), (2), ..; the last one has another label if it was added."""
    labels = [f"({i})" for i in range(1, len(rows) + 1)]
    if added:
        labels[-1] = added
    return list(zip(labels, rows))


def row_list(formulas: Formulas, rows: Labelled) -> str:
    """Rows with their labels."""
    lines = []
    for label, row in rows:
        left, right = formulas.row(row)
        lines.append(f'<tr><th scope="row">{label}</th> <td class="l">{left}</td> <td class="r">≤ {right}</td></tr>\n')
    return _table("rows", lines)


def sum_table(formulas: Formulas, rows: Labelled, weights: Sequence[int], total: Row, marks: tuple[Mark, ...] = ()) -> str:
    """The rows that have a multiplier, and their sum. Rows whose multiplier is 0 add nothing and are left out."""
    lines = []
    for (label, row), weight in zip(rows, weights):
        if weight:
            left, right = formulas.row(row)
            lines.append(
                f'<tr><td class="w">{number_text(weight)} ×</td> <td class="l">{left}</td> <td class="r">≤ {right}</td> '
                f'<th scope="row">{label}</th></tr>\n'
            )
    if not lines:
        lines.append('<tr><td class="none" colspan="4">every multiplier is 0</td></tr>\n')
    left, right = formulas.row(total, marks)
    lines.append(
        f'<tr class="total"><td class="w">sum</td> <td class="l">{left}</td> <td class="r">≤ {right}</td> <td></td></tr>\n'
    )
    return _table("sum", lines)


def _table(kind: str, lines: Sequence[str]) -> str:
    return f'<table class="{kind}"><tbody>\n{"".join(lines)}</tbody></table>\n'
