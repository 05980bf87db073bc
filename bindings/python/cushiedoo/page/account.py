"""The argument of each kind of certificate, as a textbook sets it.

An account gives the argument step by step. Where a condition fails it stops there, with the place marked and the two numbers that
differ; `failure` is that condition, or nothing.
"""
from __future__ import annotations

from typing import Iterator

from ..judging import AnyLoop, Certificate
from ..packed import Argument, PathLoop, Settling
from ..records import Exclusion, Lasso, Ranking
from .argument import argument_account
from .exclusion import exclusion_account
from .lasso import lasso_account
from .markup import Formulas
from .ranking import Failure, ranking_account
from .settling import settling_account
from .tables import labelled


def account(formulas: Formulas, loop: AnyLoop, certificate: Certificate, failure: Failure) -> Iterator[str]:
    """The argument of a certificate whose record is sound."""
    if isinstance(loop, PathLoop):
        assert isinstance(certificate, Argument)
        return argument_account(formulas, loop, certificate, failure)
    if isinstance(certificate, Exclusion):
        return exclusion_account(formulas, loop, certificate, failure)
    if isinstance(certificate, Lasso):
        return lasso_account(formulas, loop, certificate, failure)
    if isinstance(certificate, Settling):
        return settling_account(formulas, loop, certificate, failure)
    assert isinstance(certificate, Ranking)
    return ranking_account(formulas, labelled(loop.rows), certificate, failure)
