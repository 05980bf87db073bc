"""Cushiedoo for Python: a proved checker of certificates that loops end.

Every verdict comes from the proved archive, through a shared library that `bindings/python/build` makes from it. This package adds
types, words and pages, and decides nothing.

>>> from cushiedoo import Loop, Ranking, Row, bound, judge
>>> loop = Loop(2, [
...     Row((-1, 1), (0, 0), -2),  # −x + y ≤ −2
...     Row((-1, 0), (1, 0), -1),  # −x + x′ ≤ −1
...     Row((0, 1), (0, -1), 0),   # y − y′ ≤ 0
... ], names=("x", "y"))
>>> print(judge(loop, Ranking(y=(1, 0, 0), z=(0, 1, 1))))
ranking accepted: x − y is at least 2 before each step and falls by at least 1 in it
>>> print(bound(loop, Ranking(y=(1, 0, 0), z=(0, 1, 1)), state=(5, 1)))
at most 3 steps
>>> print(judge(loop, Ranking(y=(1, 0, 0), z=(0, 1, 0))))
certificate, 22 at 1: (Y − Z)A is not 0 in column 1 (y)
"""
from .answers import Accepted, Bounded, Excluded, Grade, LassoRanked, Ordered, Outcome, Ranked, Settled, Verdict
from .calls import MOST_RECORDS, lengthen, read_certificate, read_loop, sheet_text, shorten, write_record
from .judging import AnyLoop, Certificate, bound, certificate_from_bytes, judge, judge_all, judge_list, loop_from_bytes
from .layouts import Shape
from .library import LibraryMissing
from .packed import Argument, Component, Part, PathLoop, Settling
from .parting import loop_and_certificates, parted
from .records import Exclusion, Lasso, Loop, Ranking, Row
from .refusals import Record, Refusal, Refused, Where, expect
from .sheets import Counts, Sheet, sheet
from .wording import words

__all__ = [
    "Accepted", "AnyLoop", "Argument", "Bounded", "Certificate", "Component", "Counts", "Excluded", "Exclusion", "Grade", "Lasso",
    "LassoRanked", "LibraryMissing", "Loop", "MOST_RECORDS", "Ordered", "Outcome", "Part", "PathLoop", "Ranked", "Ranking",
    "Record", "Refusal", "Refused", "Row", "Settled", "Settling", "Shape", "Sheet", "Verdict", "Where", "bound",
    "certificate_from_bytes", "expect", "judge", "judge_all", "judge_list", "lengthen", "loop_and_certificates",
    "loop_from_bytes", "parted", "read_certificate", "read_loop", "sheet", "sheet_text", "shorten", "words", "write_record",
]
