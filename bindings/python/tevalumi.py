"""Small linear programs and their audit sheet, over a library whose every function is proved.

A problem is built column by column and row by row, or handed over as lists (or numpy arrays):

>>> problem = Problem(maximise=True)
>>> north = problem.add_column(6, name="north")
>>> south = problem.add_column(2, name="south")
>>> problem.add_row({north: 2, south: 1}, "<=", 9, name="air")
0
>>> solution = problem.solve()
>>> solution.objective, solution["north"], solution["south"]
(27.0, 4.5, 0.0)

A column of it can be held still, and let go, from where the run left off:

>>> held = solution.fix("north", 3)
>>> held.objective, held["south"], held.steps, held.unfix("north").objective
(24.0, 3.0, 1, 27.0)

The audit sheet says in whole numbers how much better another plan could be:

>>> sheet = problem.audit()
>>> sheet.amounts, sheet.verdict().sentence[:69]
([4, 0], 'This whole plan, which costs -24, is the cheapest one to within 3.0: ')
>>> sheet.set_amount(south, 1)
>>> sheet.verdict().gap
Fraction(1, 1)

A night plans alarms first, then the rest; of 8 ms an alarm wants 6 and soil reports want 9:

>>> told = night([[1, 1]], [-1, 0], [0, -1], ["<="], [8], uppers=[6, 9])
>>> told.case, told.amounts, told.alarm_gap
('handed', [6, 2], Fraction(0, 1))

What isn't solved is an `Error` with document 01's number, the place and a sentence:

>>> solve([1, 1], [[1, 1]], ["<="], [4], lowers=[0, 3], uppers=[9, 2])
Traceback (most recent call last):
tevalumi.Error: 4: a lower bound is above its upper bound (column 1)

The library is looked for where the environment variable TEVALUMI_LIBRARY says, then where `make python` of the
repository writes it, then where the system's loader finds libtevalumi.so.0 (`make install`).
"""

from __future__ import annotations

import copy
import ctypes
import functools
import math
import operator
import os
import sys
from ctypes import c_double, c_int64, c_size_t, c_uint8
from dataclasses import dataclass, field, replace
from fractions import Fraction
from pathlib import Path
from typing import Any, Iterable, Iterator, Mapping, NamedTuple, Optional, Sequence, Union

__all__ = [
    "Error",
    "FileError",
    "Night",
    "Place",
    "Problem",
    "Sheet",
    "Solution",
    "Stage",
    "Verdict",
    "audit",
    "night",
    "read",
    "solve",
]

COLUMNS = 128
ROWS = 96
BUDGET = 10_000
TOLERANCE = 1e-6
BLOCK = 512
FILE = 217 * BLOCK

_OPS = {"<=": 0, "=": 1, "==": 1, ">=": 2}
_SIGNS = ["<=", "=", ">="]
# Where a variable stands by its flag, and a row that isn't basic by its comparison.
_STANDS = ["free", "at lower", "at upper", "fixed"]
_ROW_STANDS = ["at upper", "fixed", "at lower"]

_SENTENCES = {
    1: "a size is over its limit or an array is too short",
    2: "a number isn't allowed: NaN, an infinity where none may stand, a size above 1e12, a tolerance outside 0 to 1, "
    "or an unknown comparison",
    3: "a row names a column twice, out of order, or that isn't there",
    4: "a lower bound is above its upper bound",
    5: "a row without entries is false",
    6: "a number of the start isn't finite",
    7: "a row isn't kept at the start, and a column has no bound on the side that its cost prefers: a plain solve begins "
    "where every row is kept, or where every column has one",
    20: "unbounded: no bound and no row's coefficient of at least 1e-8 in size stops a column that makes the plan cheaper",
    21: "the step budget is spent",
    22: "the eta store is full",
    23: "a number of a step isn't finite",
    24: "the final check rejects the values",
    25: "the basis after an exchange can't be factored: every remaining entry of some column is under EPS",
    26: "the solver finds no column that could mend a row: none that has room to move has a coefficient of at least 1e-8 "
    "in size there",
    11: "a size is over its limit, an array is too short, or an index is outside the sheet",
    12: "a number is over the sheet's limit, or a mark isn't known",
    13: "a lower bound is above its upper bound",
    14: "the sheet is damaged: a number or mark breaks its limit",
    15: "this kind of edit is kept for later",
    16: "there is no such kind of edit",
    31: "a block's kind isn't known",
    32: "a block's check is wrong",
    33: "a block is missing, cut, repeated or misplaced, or something stands behind the end",
    34: "an unused byte of a block isn't 0",
    41: "the memory isn't what an Optimal run over this plan left",
    42: "the plan has no such column",
    43: "the value isn't finite or is outside the column's bounds",
    44: "the column isn't fixed",
}


class Place(NamedTuple):
    """Where an error arose, from 0: an entry of a row, a column, a row, or a block of a file."""

    kind: str
    at: int
    within: Optional[int] = None

    def __str__(self) -> str:
        return f"{self.kind} {self.at}" if self.within is None else f"entry {self.within} of row {self.at}"


class Error(Exception):
    """What the library refused or didn't solve.

    `number` is document 01's, `sentence` says it in words, `place` where it has one. With 20 to 26 `steps` and
    `objective` are those after the last whole step, and with 24 `excess` is the largest excess.
    """

    def __init__(
        self,
        number: int,
        place: Optional[Place] = None,
        sentence: Optional[str] = None,
        steps: int = 0,
        objective: float = 0.0,
        excess: float = 0.0,
        costless_steps: Optional[int] = None,
    ) -> None:
        self.number = number
        self.place = place
        self.sentence = sentence or _SENTENCES.get(number, "an answer that isn't known here")
        self.steps = steps
        self.objective = objective
        self.excess = excess
        self.costless_steps = costless_steps
        super().__init__(f"{number}: {self.sentence}" + (f" ({place})" if place else ""))


class FileError(Exception):
    """A file that can't be read: its name, the line where one is to blame, and what is wrong."""


# ---- The library ----


class _Answer(ctypes.Structure):
    _fields_ = [
        ("status", c_size_t),
        ("objective", c_double),
        ("steps", c_size_t),
        ("place", c_size_t),
        ("at", c_size_t),
        ("within", c_size_t),
        ("excess", c_double),
    ]


class _Any(ctypes.Structure):
    _fields_ = [("answer", _Answer), ("way", c_size_t), ("costless_steps", c_size_t)]


class _Verdict(ctypes.Structure):
    _fields_ = [("status", c_size_t), ("kind", c_size_t), ("value", c_int64)]


class _Written(ctypes.Structure):
    _fields_ = [("status", c_size_t), ("bytes", c_size_t)]


class _Read(ctypes.Structure):
    _fields_ = [("status", c_size_t), ("block", c_size_t), ("rows", c_size_t), ("columns", c_size_t)]


class _Whole(ctypes.Structure):
    _fields_ = [("kind", c_size_t), ("number", c_int64), ("beyond", c_double)]


class _Proposal(ctypes.Structure):
    _fields_ = [("status", c_size_t), ("kind", c_size_t), ("place", c_size_t), ("answer", _Whole)]


class _Stage(ctypes.Structure):
    _fields_ = [
        ("run", _Answer),
        ("audit", c_size_t),
        ("opening", c_size_t),
        ("proposal", _Proposal),
        ("verdict", _Verdict),
    ]


class _Night(ctypes.Structure):
    _fields_ = [
        ("status", c_size_t),
        ("kind", c_size_t),
        ("column", c_size_t),
        ("first", _Stage),
        ("second", _Stage),
    ]


_RESULTS = {
    "solve": _Answer,
    "solve_any": _Any,
    "reprice": _Answer,
    "fix": _Answer,
    "unfix": _Answer,
    "open": c_size_t,
    "verdict": _Verdict,
    "edit": c_size_t,
    "write_plan": _Written,
    "read_plan": _Read,
    "propose": _Proposal,
    "night": _Night,
}

# The state's sections, as tevalumi.h has them.
_NB_VARS, _FLAGS, _KEPT, _COUNTS, _NUMBERS = 96, 448, 5185, 5281, 5288
_PRICES, _DOUBLES = 224, 4673
_FACTOR_NUMBERS, _FACTOR_COEFFS = 18820, 18336
# And those of a night's whole numbers.
_STAGE_MULTS, _STAGE, _SECOND, _HANDED, _WHOLE = 128, 454, 454, 908, 13324


@functools.lru_cache(maxsize=None)
def _library() -> ctypes.CDLL:
    named = os.environ.get("TEVALUMI_LIBRARY")
    built = Path(__file__).resolve().parents[2] / "build" / "python" / "libtevalumi.so"
    try:
        library = ctypes.CDLL(named or (str(built) if built.is_file() else "libtevalumi.so.0"))
    except OSError as error:
        hint = "`make python` in the repository builds the library for this machine; TEVALUMI_LIBRARY may name it"
        raise OSError(f"{error}; {hint}") from None
    for name, result in _RESULTS.items():
        getattr(library, f"tevalumi_{name}").restype = result
    return library


def _call(name: str, *words: Any) -> Any:
    """A call of the library. An array goes over as a pointer and its number of cells."""
    flat: list[Any] = []
    for word in words:
        if isinstance(word, ctypes.Array):
            flat += [word, c_size_t(len(word))]
        elif isinstance(word, float):
            flat.append(c_double(word))
        else:
            flat.append(c_size_t(word) if isinstance(word, int) else word)
    return getattr(_library(), f"tevalumi_{name}")(*flat)


def _list(numbers: Iterable[Any]) -> list[Any]:
    """A list of plain numbers, from numpy's arrays too."""
    return numbers.tolist() if hasattr(numbers, "tolist") else list(numbers)


def _doubles(numbers: Iterable[Any]) -> ctypes.Array:
    numbers = [float(number) for number in numbers]
    return (c_double * len(numbers))(*numbers)


def _size(number: int) -> int:
    """A number below 0 or too large to go over becomes one that is too large for every use."""
    number = operator.index(number)
    return number if 0 <= number < 2**63 else 2**63


def _sizes(numbers: Sequence[int]) -> ctypes.Array:
    return (c_size_t * len(numbers))(*numbers)


def _marks(numbers: Sequence[int]) -> ctypes.Array:
    return (c_uint8 * len(numbers))(*numbers)


def _whole(number: Any) -> int:
    """A whole number that goes over as it is. Else it is over every limit of the sheet, which is 12."""
    if number != number or number in (math.inf, -math.inf) or int(number) != number or abs(number) >= 2**63:
        raise Error(12, sentence=f"{number} isn't a whole number within the sheet's limits")
    return int(number)


def _wholes(numbers: Iterable[Any]) -> ctypes.Array:
    numbers = [_whole(number) for number in numbers]
    return (c_int64 * len(numbers))(*numbers)


def _op(op: str) -> int:
    if op not in _OPS:
        raise Error(2, sentence=f"{op!r} is no comparison: <=, = or >=")
    return _OPS[op]


# ---- Problems ----

Terms = Union[Mapping[int, float], Iterable[tuple]]


@dataclass
class Problem:
    """A plan: find the values with the lowest cost, or the highest where `maximise` says so.

    `budget` is the most steps that a solve takes (0 to 10,000), `tolerance` the final check's (0 to 1), `constant`
    what is added to the objective. Each row is its terms, columns with their coefficients. Where neither kind of step
    begins at the start, the problem is solved with costs 0 first, within the same budget; `plain` refuses it with 7.
    """

    maximise: bool = False
    budget: int = BUDGET
    tolerance: float = TOLERANCE
    name: str = ""
    costs: list[float] = field(default_factory=list)
    lowers: list[float] = field(default_factory=list)
    uppers: list[float] = field(default_factory=list)
    rows: list[list[tuple[int, float]]] = field(default_factory=list)
    ops: list[str] = field(default_factory=list)
    rhs: list[float] = field(default_factory=list)
    column_names: list[str] = field(default_factory=list)
    row_names: list[str] = field(default_factory=list)
    constant: float = 0.0
    plain: bool = False

    @classmethod
    def of(
        cls,
        costs: Iterable[float],
        matrix: Iterable[Iterable[float]],
        ops: Iterable[str],
        rhs: Iterable[float],
        lowers: Optional[Iterable[float]] = None,
        uppers: Optional[Iterable[float]] = None,
        **settings: Any,
    ) -> Problem:
        """A problem from lists or arrays, `matrix` row by row. Without bounds a column is 0 or more."""
        problem = cls(**settings)
        costs, ops, rhs = _list(costs), _list(ops), _list(rhs)
        lowers = [0.0] * len(costs) if lowers is None else _list(lowers)
        uppers = [math.inf] * len(costs) if uppers is None else _list(uppers)
        matrix = [_list(row) for row in _list(matrix)]
        if not len(costs) == len(lowers) == len(uppers) or not len(matrix) == len(ops) == len(rhs):
            raise Error(1)
        for cost, lower, upper in zip(costs, lowers, uppers):
            problem.add_column(cost, lower, upper)
        for row, op, right in zip(matrix, ops, rhs):
            problem.add_row([(j, coeff) for j, coeff in enumerate(row) if coeff != 0], op, right)
        return problem

    def add_column(self, cost: float, lower: float = 0.0, upper: float = math.inf, name: str = "") -> int:
        """A column with its cost and its bounds (an infinity: none). Its number, from 0."""
        self.costs.append(float(cost))
        self.lowers.append(float(lower))
        self.uppers.append(float(upper))
        self.column_names.append(name or f"x{len(self.costs) - 1}")
        return len(self.costs) - 1

    def add_row(self, terms: Terms, op: str, rhs: float, name: str = "") -> int:
        """A row: the sum of its terms (column to coefficient) is <=, = or >= its right side. Its number, from 0."""
        _op(op)
        pairs = terms.items() if isinstance(terms, Mapping) else terms
        # A column that stands twice stays so, side by side: the library answers 3 and names it.
        self.rows.append(sorted(((int(column), float(coeff)) for column, coeff in pairs), key=lambda term: term[0]))
        self.ops.append(op)
        self.rhs.append(float(rhs))
        self.row_names.append(name or f"r{len(self.rhs) - 1}")
        return len(self.rhs) - 1

    def solve(self) -> Solution:
        """The best values. Raises `Error` where there is no such answer."""
        run = _Run(self)
        if run.answer.status != 0:
            raise run.error()
        return run.solution()

    def audit(self) -> Sheet:
        """Solves, and opens the audit sheet with the whole numbers nearest to the run's values and prices.

        Raises `Error` where the problem isn't solved, or 12 where a number of it isn't whole within the sheet's
        limits. The sheet minimises: where the problem is to be maximised its costs have their signs turned.
        """
        run = _Run(self)
        if run.answer.status != 0:
            raise run.error()
        return run.sheet()

    def _turned(self, number: float) -> float:
        return 0.0 - number if self.maximise else number


class _Run:
    """A problem as the library's arrays, and what a solve left in the lent ones."""

    def __init__(self, problem: Problem) -> None:
        self.problem = problem
        entries = [entry for row in problem.rows for entry in row]
        starts = [0]
        for row in problem.rows:
            starts.append(starts[-1] + len(row))
        self.columns, self.rows = len(problem.costs), len(problem.rows)
        self.costs = _doubles(problem._turned(cost) for cost in problem.costs)
        self.starts, self.ops = _sizes(starts), _marks([_op(op) for op in problem.ops])
        # What every call over the problem is lent to read, and what it writes.
        self.plan: list[Any] = [
            self.columns,
            self.rows,
            len(entries),
            _size(problem.budget),
            float(problem.tolerance),
            self.costs,
            _doubles(problem.lowers),
            _doubles(problem.uppers),
            self.starts,
            _sizes([_size(column) for column, _ in entries]),
            _doubles(coeff for _, coeff in entries),
            self.ops,
            _doubles(problem.rhs),
        ]
        self.values = _doubles([0.0] * (COLUMNS + ROWS))
        self.numbers, self.doubles = (c_size_t * _NUMBERS)(), (c_double * _DOUBLES)()
        self.factor = [(c_size_t * _FACTOR_NUMBERS)(), (c_double * _FACTOR_COEFFS)()]
        self.call("solve" if problem.plain else "solve_any")

    def call(self, name: str, *words: Any) -> None:
        """One of the calls over the problem and the lent memory."""
        lent = [self.values, self.numbers, self.doubles, *self.factor]
        told = _call(name, *self.plan, *lent, *words)
        self.answer: _Answer = told.answer if isinstance(told, _Any) else told
        repriced = isinstance(told, _Any) and told.way == 2
        self.costless_steps: Optional[int] = told.costless_steps if repriced else None
        self.kept = list(self.numbers[_KEPT : _KEPT + self.numbers[_COUNTS]])

    def gone_on(self, name: str, *words: Any) -> _Run:
        """The same with one call more, over a copy of the memory: this run stays as it is."""
        run = copy.copy(self)
        arrays = [self.values, self.numbers, self.doubles, *self.factor]
        run.values, run.numbers, run.doubles, *run.factor = [type(a).from_buffer_copy(a) for a in arrays]
        run.call(name, *words)
        if run.answer.status != 0:
            raise run.error()
        return run

    def priced(self, costs: list[float]) -> _Run:
        """The same with other costs, from where this run ended."""
        run = copy.copy(self)
        run.problem = replace(self.problem, costs=costs)
        run.costs = _doubles(run.problem._turned(cost) for cost in costs)
        run.plan = [run.costs if word is self.costs else word for word in self.plan]
        return run.gone_on("reprice")

    def place(self) -> Optional[Place]:
        kind, at, within = self.answer.place, self.answer.at, self.answer.within
        if kind == 1:
            return Place("entry", at, within)
        if kind == 2 or kind == 4 and at < self.columns:
            return Place("column", at)
        if kind == 3:
            return Place("row", at)
        if kind in (4, 5):
            return Place("row", self.kept[at - self.columns if kind == 4 else at])
        return None

    def objective(self) -> float:
        objective = self.problem._turned(self.answer.objective)
        return objective + self.problem.constant if self.problem.constant else objective

    def error(self) -> Error:
        answer = self.answer
        numbers = (answer.steps, self.objective(), answer.excess, self.costless_steps)
        return Error(answer.status, self.place(), None, *numbers)

    def solution(self) -> Solution:
        columns, turned = self.columns, self.problem._turned
        prices = [0.0] * (columns + len(self.kept))
        stands, row_stands = ["basic"] * len(prices), ["basic"] * self.rows
        for place in range(columns):
            var = self.numbers[_NB_VARS + place]
            prices[var], stands[var] = self.doubles[_PRICES + place], _STANDS[self.numbers[_FLAGS + place] & 3]
        slacks: list[Optional[float]] = [None] * self.rows
        multipliers = [0.0] * self.rows
        for k, row in enumerate(self.kept):
            slacks[row] = self.values[columns + k]
            multipliers[row] = turned(0.0 - prices[columns + k])
            row_stands[row] = "basic" if stands[columns + k] == "basic" else _ROW_STANDS[self.ops[row]]
        return Solution(
            problem=self.problem,
            objective=self.objective(),
            steps=self.answer.steps,
            costless_steps=self.costless_steps,
            excess=self.answer.excess,
            values=list(self.values[:columns]),
            slacks=slacks,
            prices=[turned(price) for price in prices[:columns]],
            multipliers=multipliers,
            stands=stands[:columns],
            row_stands=row_stands,
            _run=self,
        )

    def sheet(self) -> Sheet:
        problem, columns, rows = self.problem, self.columns, self.rows
        matrix = [[0] * columns for _ in range(rows)]
        for row, entries in zip(matrix, problem.rows):
            for column, coeff in entries:
                row[column] = _whole(coeff)
        amounts, mults = (c_int64 * columns)(), (c_int64 * rows)()
        told: _Proposal = _call(
            "propose", columns, rows, self.starts, self.ops, self.values, self.numbers, self.doubles, amounts, mults
        )
        if told.status != 0:
            raise Error(told.status)
        if told.kind != 0:
            what, place = ("amount", "column") if told.kind == 2 else ("multiplier in 1/1024", "row")
            raise Error(12, Place(place, told.place), f"the {what} {told.answer.beyond!r} is over the sheet's limit")
        sides = (problem.lowers, problem.uppers)
        present = [[None if math.isinf(bound) else bound for bound in side] for side in sides]
        return Sheet(matrix, self.costs, problem.ops, problem.rhs, list(amounts), list(mults), *present)


@dataclass(frozen=True)
class Solution:
    """The best values of a problem. `solution[0]` or `solution["north"]` is a column's value.

    `slacks` is what each row has left (None for a row without terms), `prices` how much the objective moves for each
    unit by which a column is moved from its value, `multipliers` for each unit by which a right side is raised.
    `stands` says of each column, and `row_stands` of each row, whether it is basic, at lower, at upper, fixed or free.
    `costless_steps` were taken with costs 0 before the `steps` with the problem's own; None where there was no need.
    """

    problem: Problem
    objective: float
    steps: int
    costless_steps: Optional[int]
    excess: float
    values: list[float]
    slacks: list[Optional[float]]
    prices: list[float]
    multipliers: list[float]
    stands: list[str]
    row_stands: list[str]
    _run: _Run = field(repr=False, compare=False)

    def __getitem__(self, column: Union[int, str]) -> float:
        return self.values[self._place(column)]

    def _place(self, column: Union[int, str]) -> int:
        return self.problem.column_names.index(column) if isinstance(column, str) else column

    def fix(self, column: Union[int, str], value: float) -> Solution:
        """The solution with a column held still, found from this one on: `steps` are those that it took.

        The column stays there through later calls, until it is fixed elsewhere or let go. Raises `Error`: 42 for a
        column that isn't there, 43 for a value outside its bounds, or how the run ended. This solution stays as it is.
        """
        return self._run.gone_on("fix", _size(self._place(column)), float(value)).solution()

    def unfix(self, column: Union[int, str]) -> Solution:
        """The solution with the column let go again. Raises `Error`, 44 where it isn't fixed."""
        return self._run.gone_on("unfix", _size(self._place(column))).solution()

    def with_costs(self, costs: Iterable[float]) -> Solution:
        """The solution with other costs, one for each column, found from this one on. Columns that are fixed stay so.

        Raises `Error`: 1 where there aren't as many costs as columns, 2 for one that isn't allowed, or how the run
        ended. This solution stays as it is.

        >>> solve([-3, -1], [[1, 1]], ["<="], [4], uppers=[float("inf"), 2]).with_costs([-3, -5]).values
        [2.0, 2.0]
        """
        costs = [float(cost) for cost in _list(costs)]
        if len(costs) != len(self.values):
            raise Error(1)
        return self._run.priced(costs).solution()

    def __iter__(self) -> Iterator[float]:
        return iter(self.values)

    def __len__(self) -> int:
        return len(self.values)


# ---- The audit sheet ----


@dataclass(frozen=True)
class Verdict:
    """What a sheet says of its amounts. `kind` is "not a plan", "no floor", "gap" or "none exists".

    With "gap" no plan, whole or fractional, is cheaper by more than `gap`, which is exact.
    """

    kind: str
    gap: Optional[Fraction]
    sentence: str


def _sentence(sheet: Sheet, kind: str, gap: str, problem: Optional[Problem] = None) -> str:
    """What a verdict says, as the program says it; in the words of the problem's direction, if there is one."""
    costs, cheapest, cheaper, cost = "costs", "cheapest", "cheaper", sheet.cost
    if problem and problem.maximise:
        costs, cheapest, cheaper, cost = "is worth", "best", "worth more", -sheet.cost
    without = f" without the constant {_shown(problem.constant)}" if problem and problem.constant else ""
    this = f"This whole plan, which {costs} {cost}{without},"
    broken, out, signs, absent = sheet.counts
    if kind == "gap" and gap == "0.0":
        return f"{this} is the {cheapest} one: no plan, whole or fractional, is {cheaper}."
    if kind == "gap":
        none = f"no plan, whole or fractional, is {cheaper} by more than {gap}"
        return f"{this} is the {cheapest} one to within {gap}: {none}."
    if kind == "no floor":
        faults = [(signs, "multiplier has the wrong sign", "multipliers have the wrong sign")]
        faults += [(absent, "price needs a bound that is absent", "prices need a bound that is absent")]
        says = f"so it doesn't say by how much another could be {cheaper}"
        return f"{this} keeps every row and bound, but the sheet has no floor ({_listed(faults)}), {says}."
    if kind == "not a plan":
        faults = [(broken, "row is broken", "rows are broken")]
        faults += [(out, "amount is out of its bounds", "amounts are out of their bounds")]
        says = "so the sheet says nothing about other plans"
        return f"The whole amounts that were found aren't a plan ({_listed(faults)}), {says}."
    return "No plan exists, whole or fractional."


def _listed(counts: Iterable[tuple[int, str, str]]) -> str:
    return " and ".join(_counted(*count) for count in counts if count[0])


class Sheet:
    """The audit sheet: a plan in whole numbers, an amount for each column, a multiplier (in 1/1024) for each row.

    `matrix` is row by row; a bound of None is absent. Each edit moves the kept numbers with it, and the sheet then
    equals one opened afresh: that is proved. A refused call raises `Error` and changes nothing.

    >>> sheet = Sheet([[1, 1]], [-3, -1], ["<="], [4], [3, 0], [-3072], lowers=[0, 0], uppers=[None, 2])
    >>> sheet.cost, sheet.floor, sheet.verdict().gap
    (-9, Fraction(-12, 1), Fraction(3, 1))
    """

    def __init__(
        self,
        matrix: Iterable[Iterable[int]],
        costs: Iterable[int],
        ops: Iterable[str],
        rhs: Iterable[int],
        amounts: Iterable[int],
        mults: Iterable[int],
        lowers: Iterable[Optional[int]],
        uppers: Iterable[Optional[int]],
    ) -> None:
        matrix = [_list(row) for row in _list(matrix)]
        costs, lowers, uppers = _list(costs), _list(lowers), _list(uppers)
        rows, columns = len(matrix), len(costs)
        if any(len(row) != columns for row in matrix):
            raise Error(11)
        self._take(
            rows,
            columns,
            _wholes(number for row in matrix for number in row),
            _wholes(costs),
            _wholes(0 if bound is None else bound for bound in lowers),
            _wholes(0 if bound is None else bound for bound in uppers),
            _marks([int(bound is not None) for bound in lowers]),
            _marks([int(bound is not None) for bound in uppers]),
            _wholes(_list(rhs)),
            _marks([_op(op) for op in _list(ops)]),
            _wholes(_list(amounts)),
            _wholes(_list(mults)),
        )

    def _take(self, rows: int, columns: int, *figures: ctypes.Array) -> None:
        """Opens the sheet over these arrays. The kept ones are no larger than an accepted sheet needs."""
        self._rows, self._columns = rows, columns
        self._figures = figures
        lengths = (min(rows, ROWS), min(columns, COLUMNS), 1, 1, 4)
        self._kept = tuple((c_int64 * length)() for length in lengths)
        _refused(_call("open", rows, columns, *figures, *self._kept))

    def verdict(self) -> Verdict:
        """What the sheet says: is there a cheaper plan, and by how much at most?"""
        told: _Verdict = _call("verdict", self._rows, self._columns, *self._figures, *self._kept)
        _refused(told.status)
        kind = ["not a plan", "no floor", "gap", "none exists"][told.kind]
        gap = Fraction(told.value, 1024) if kind == "gap" else None
        return Verdict(kind, gap, _sentence(self, kind, _of_1024(told.value)))

    def edit(self, kind: int, row: int, column: int, number: int) -> None:
        """One edit by document 01's kind, 1 to 9; `set_amount` and the others say it by name."""
        words = [_size(kind), _size(row), _size(column), c_int64(_whole(number))]
        _refused(_call("edit", *words, self._rows, self._columns, *self._figures, *self._kept))

    def set_amount(self, column: int, to: int) -> None:
        """A column's amount."""
        self.edit(1, 0, column, to)

    def set_cost(self, column: int, to: int) -> None:
        """A column's cost."""
        self.edit(2, 0, column, to)

    def set_lower(self, column: int, to: Optional[int]) -> None:
        """A column's lower bound; None drops it."""
        self.edit(8, 0, column, 0) if to is None else self.edit(3, 0, column, to)

    def set_upper(self, column: int, to: Optional[int]) -> None:
        """A column's upper bound; None drops it."""
        self.edit(9, 0, column, 0) if to is None else self.edit(4, 0, column, to)

    def set_right(self, row: int, to: int) -> None:
        """A row's right side."""
        self.edit(5, row, 0, to)

    def set_coefficient(self, row: int, column: int, to: int) -> None:
        """The coefficient of a column in a row."""
        self.edit(6, row, column, to)

    def set_multiplier(self, row: int, to: int) -> None:
        """A row's multiplier, in 1/1024."""
        self.edit(7, row, 0, to)

    @property
    def matrix(self) -> list[list[int]]:
        """The coefficients, row by row."""
        return [list(self._figures[0][i * self._columns : (i + 1) * self._columns]) for i in range(self._rows)]

    @property
    def costs(self) -> list[int]:
        """A cost for each column."""
        return list(self._figures[1])

    @property
    def lowers(self) -> list[Optional[int]]:
        """A lower bound for each column, None where it is absent."""
        return [bound if mark else None for bound, mark in zip(self._figures[2], self._figures[4])]

    @property
    def uppers(self) -> list[Optional[int]]:
        """An upper bound for each column, None where it is absent."""
        return [bound if mark else None for bound, mark in zip(self._figures[3], self._figures[5])]

    @property
    def rhs(self) -> list[int]:
        """A right side for each row."""
        return list(self._figures[6])

    @property
    def ops(self) -> list[str]:
        """A comparison for each row."""
        return [_SIGNS[op] for op in self._figures[7]]

    @property
    def amounts(self) -> list[int]:
        """An amount for each column."""
        return list(self._figures[8])

    @property
    def mults(self) -> list[int]:
        """A multiplier for each row, in 1/1024."""
        return list(self._figures[9])

    @property
    def activities(self) -> list[int]:
        """Each row's sum of coefficient * amount."""
        return list(self._kept[0])

    @property
    def prices(self) -> list[Fraction]:
        """Each column's cost less what its coefficients cost at the multipliers."""
        return [Fraction(price, 1024) for price in self._kept[1]]

    @property
    def cost(self) -> int:
        """What the amounts cost."""
        return self._kept[2][0]

    @property
    def floor(self) -> Fraction:
        """What every plan costs at least, where the verdict is a gap."""
        return Fraction(self._kept[3][0], 1024)

    @property
    def counts(self) -> list[int]:
        """Rows broken, amounts out of bounds, wrong signs, absent bounds needed."""
        return list(self._kept[4])

    def to_bytes(self) -> bytes:
        """The plan's file, as `tevalumi keep` writes it (docs/FILES.md)."""
        file = (c_uint8 * FILE)()
        told: _Written = _call("write_plan", self._rows, self._columns, *self._figures, file)
        _refused(told.status)
        return bytes(file[: told.bytes])

    @classmethod
    def from_bytes(cls, file: bytes) -> Sheet:
        """The sheet of a plan's file. Raises `Error` with the block where a byte of it is wrong."""
        lengths = [ROWS * COLUMNS, COLUMNS, COLUMNS, COLUMNS, COLUMNS, COLUMNS, ROWS, ROWS, COLUMNS, ROWS]
        marks = (4, 5, 7)
        lent = [((c_uint8 if k in marks else c_int64) * length)() for k, length in enumerate(lengths)]
        told: _Read = _call("read_plan", (c_uint8 * len(file)).from_buffer_copy(file), *lent)
        if told.status != 0:
            raise Error(told.status, Place("block", told.block))
        rows, columns = told.rows, told.columns
        used = [rows * columns, columns, columns, columns, columns, columns, rows, rows, columns, rows]
        sheet = cls.__new__(cls)
        sheet._take(rows, columns, *((array._type_ * n)(*array[:n]) for array, n in zip(lent, used)))
        return sheet


def _refused(status: int) -> None:
    if status != 0:
        raise Error(status)


def solve(
    costs: Iterable[float],
    matrix: Iterable[Iterable[float]],
    ops: Iterable[str],
    rhs: Iterable[float],
    lowers: Optional[Iterable[float]] = None,
    uppers: Optional[Iterable[float]] = None,
    **settings: Any,
) -> Solution:
    """Solves a problem from lists or arrays; `settings` are `maximise`, `budget`, `tolerance` and `plain`.

    >>> solve([-3, -1], [[1, 1]], ["<="], [4], uppers=[float("inf"), 2]).values
    [4.0, 0.0]
    """
    return Problem.of(costs, matrix, ops, rhs, lowers, uppers, **settings).solve()


def audit(
    costs: Iterable[float],
    matrix: Iterable[Iterable[float]],
    ops: Iterable[str],
    rhs: Iterable[float],
    lowers: Optional[Iterable[float]] = None,
    uppers: Optional[Iterable[float]] = None,
    **settings: Any,
) -> Sheet:
    """Solves a problem from lists or arrays and opens its audit sheet.

    >>> audit([-3, -1], [[1, 1]], ["<="], [4], uppers=[float("inf"), 2]).verdict().gap
    Fraction(0, 1)
    """
    return Problem.of(costs, matrix, ops, rhs, lowers, uppers, **settings).audit()


# ---- The night: alarms first, then the rest ----

_CASES = {
    1: ("no gap", "nothing is handed out: the audit of the alarms shows no gap"),
    2: ("rows full", f"nothing is handed out: the plan has {ROWS} rows already, and the alarms need one"),
    3: ("entries full", "nothing is handed out: the row for the alarms would pass 2,048 entries"),
    4: ("cost beyond", "nothing is handed out: the alarm cost of column {} is above 4,096 in size"),
    5: ("found beyond", "nothing is handed out: the found alarm cost is above 2^31 in size"),
    6: ("the first stands", "the amounts are those of the alarms alone: the second stage gives no plan"),
    7: ("handed", "alarms first, then the rest: the amounts are those of the second stage"),
}


@dataclass(frozen=True)
class Stage:
    """One stage of a night: how its run ended (document 01's number) and what came of its audit.

    `audit` is "not run", "not whole", "not opened" or "judged"; `sheet` is there where it was opened, with amounts,
    multipliers, cost and verdict.
    """

    status: int
    steps: int
    excess: float
    audit: str
    sentence: str
    sheet: Optional[Sheet]


@dataclass(frozen=True)
class Night:
    """What a night gives. `case` is in a word or two what is handed out or why nothing is, `number` the header's.

    The amounts that are handed out never cost more alarms than the first stage's, and these cost at most `alarm_gap`
    more than the least possible, by any amounts, whole or fractional: that is proved.
    """

    case: str
    number: int
    sentence: str
    first: Stage
    second: Optional[Stage]
    amounts: Optional[list[int]]
    alarm_cost: Optional[int]
    alarm_gap: Optional[Fraction]


def night(
    matrix: Iterable[Iterable[int]],
    alarm_costs: Iterable[int],
    report_costs: Iterable[int],
    ops: Iterable[str],
    rhs: Iterable[int],
    lowers: Optional[Iterable[Optional[int]]] = None,
    uppers: Optional[Iterable[Optional[int]]] = None,
    budget: int = BUDGET,
    tolerance: float = TOLERANCE,
) -> Night:
    """Alarms first, then the rest, over a plan in whole numbers with two costs for each column.

    It is solved with the alarm costs alone, rounded and audited. Then the row "alarm cost at most what was found" is
    added, and it is solved with the report costs. A bound of None or an infinity is absent; without bounds a column is
    0 or more. A column that makes the reports cheaper needs an upper bound, else the second stage isn't begun. Raises
    `Error` 12 where a number isn't whole.

    >>> told = night([[1, 1]], [-1, 0], [0, -1], ["<="], [8], uppers=[6, None])
    >>> told.case, told.amounts, told.second.status
    ('the first stands', [6, 0], 7)
    """
    plan = _Whole(matrix, alarm_costs, report_costs, ops, rhs, lowers, uppers)
    values = _doubles([0.0] * (COLUMNS + ROWS + 1))
    numbers, doubles = (c_size_t * _NUMBERS)(), (c_double * _DOUBLES)()
    factor = (c_size_t * _FACTOR_NUMBERS)(), (c_double * _FACTOR_COEFFS)()
    whole = (c_int64 * _WHOLE)()
    settings = (_size(budget), float(tolerance))
    told: _Night = _call("night", *plan.lent(), *settings, values, numbers, doubles, *factor, whole)
    _refused(told.status)
    case, sentence = _CASES[told.kind]
    first = plan.stage(told.first, plan.alarm_costs, whole[:_STAGE])
    second = amounts = cost = None
    if told.kind >= 6:
        amounts = whole[_HANDED : _HANDED + len(plan.alarm_costs)]
        cost = sum(map(int.__mul__, plan.alarm_costs, amounts))
        second = plan.with_row(first.sheet).stage(told.second, plan.report_costs, whole[_SECOND : _SECOND + _STAGE])
    gap = first.sheet.verdict().gap if first.sheet else None
    return Night(case, told.kind, sentence.format(told.column), first, second, amounts, cost, gap)


class _Whole:
    """A night's plan in whole numbers."""

    def __init__(self, matrix: Any, alarm_costs: Any, report_costs: Any, ops: Any, rhs: Any, lowers: Any, uppers: Any):
        self.matrix = [[_whole(number) for number in _list(row)] for row in _list(matrix)]
        self.alarm_costs = [_whole(cost) for cost in _list(alarm_costs)]
        self.report_costs = [_whole(cost) for cost in _list(report_costs)]
        self.ops, self.rhs = _list(ops), [_whole(right) for right in _list(rhs)]
        columns = len(self.alarm_costs)
        self.lowers = self.bounds([0] * columns if lowers is None else _list(lowers), -math.inf)
        self.uppers = self.bounds([None] * columns if uppers is None else _list(uppers), math.inf)
        sides = (self.report_costs, self.lowers, self.uppers, *self.matrix)
        if any(len(side) != columns for side in sides) or not len(self.matrix) == len(self.ops) == len(self.rhs):
            raise Error(1)

    @staticmethod
    def bounds(bounds: list[Any], none: float) -> list[Optional[int]]:
        return [None if bound is None or bound == none else _whole(bound) for bound in bounds]

    def lent(self) -> list[Any]:
        """Its sizes and arrays in the order of the call."""
        sides = (self.lowers, self.uppers)
        return [
            len(self.rhs),
            len(self.alarm_costs),
            _wholes(number for row in self.matrix for number in row),
            _wholes(self.alarm_costs),
            _wholes(self.report_costs),
            *(_wholes(bound or 0 for bound in side) for side in sides),
            *(_marks([int(bound is not None) for bound in side]) for side in sides),
            _wholes(self.rhs),
            _marks([_op(op) for op in self.ops]),
        ]

    def with_row(self, first: Optional[Sheet]) -> _Whole:
        """The second stage's plan: the row "alarm cost at most what was found" is its last."""
        found = first.cost if first else 0
        matrix, ops, rhs = [*self.matrix, self.alarm_costs], [*self.ops, "<="], [*self.rhs, found]
        return _Whole(matrix, self.alarm_costs, self.report_costs, ops, rhs, self.lowers, self.uppers)

    def stage(self, told: _Stage, costs: list[int], cells: list[int]) -> Stage:
        sheet = None
        if told.audit == 3:
            amounts, mults = cells[: len(costs)], cells[_STAGE_MULTS : _STAGE_MULTS + len(self.rhs)]
            sheet = Sheet(self.matrix, costs, self.ops, self.rhs, amounts, mults, self.lowers, self.uppers)
            sentence = sheet.verdict().sentence
        elif told.audit == 2:
            sentence = f"the sheet isn't opened: {Error(told.opening)}"
        elif told.audit == 1:
            what, place = ("amount", "column") if told.proposal.kind == 2 else ("multiplier in 1/1024", "row")
            beyond = f"{told.proposal.answer.beyond!r} of {place} {told.proposal.place}"
            sentence = f"the {what} {beyond} is over the sheet's limit"
        else:
            sentence = str(Error(told.run.status, self.place(told.run)))
        audit = ["not run", "not whole", "not opened", "judged"][told.audit]
        return Stage(told.run.status, told.run.steps, told.run.excess, audit, sentence, sheet)

    def place(self, run: _Answer) -> Optional[Place]:
        """Where a run's status arose. A row without entries is dropped by a run."""
        columns = len(self.alarm_costs)
        kept = [i for i, row in enumerate(self.matrix) if any(row)]
        if run.place in (2, 3):
            return Place("column" if run.place == 2 else "row", run.at)
        if run.place == 4 and run.at < columns:
            return Place("column", run.at)
        if run.place in (4, 5):
            return Place("row", kept[run.at - columns if run.place == 4 else run.at])
        return None


# ---- Files ----


def read(file: Union[str, os.PathLike], relax: bool = False) -> Problem:
    """The problem in a file: MPS in its free form, or a plan that `tevalumi keep` wrote.

    As the program reads it: a negative UP without a lower bound means no lower bound, bounds of 1e20 and more mean
    none, a range becomes two rows, N rows after the first are left out, and the objective's right side is a constant
    with its sign turned (in files of glpsol not turned). Columns that are to be whole are refused unless `relax`.
    Raises `FileError` with the line, or `Error` with the block of a kept plan.
    """
    content = Path(file).read_bytes()
    if content[:1] == b"\x01" or str(file).endswith(".tev"):
        return _of_sheet(Sheet.from_bytes(content))
    reader = _Mps(str(file), relax)
    for at, line in enumerate(content.decode(errors="replace").splitlines(), 1):
        reader.at = at
        if reader.line(line.rstrip()):
            return reader.problem()
    raise reader.fault("expected ENDATA, found the end of the file")


def _of_sheet(sheet: Sheet) -> Problem:
    lowers = [-math.inf if bound is None else bound for bound in sheet.lowers]
    uppers = [math.inf if bound is None else bound for bound in sheet.uppers]
    return Problem.of(sheet.costs, sheet.matrix, sheet.ops, sheet.rhs, lowers, uppers)


@dataclass
class _Row:
    kind: str
    entries: dict[int, float] = field(default_factory=dict)
    rhs: float = 0.0
    range: Optional[float] = None

    def ends(self) -> list[tuple[str, float]]:
        """A range R reaches from the right side down on L, up on G, and by its sign on E."""
        rhs, reach = self.rhs, self.range
        if reach is None or reach == 0 and self.kind == "E":
            return [({"L": "<=", "G": ">=", "E": "="}[self.kind], rhs)]
        if self.kind == "L" or self.kind == "E" and reach < 0:
            return [("<=", rhs), (">=", rhs - abs(reach))]
        return [("<=", rhs + abs(reach)), (">=", rhs)]


class _Mps:
    """MPS in its free form, line by line."""

    SECTIONS = ("NAME", "OBJSENSE", "ROWS", "COLUMNS", "RHS", "RANGES", "BOUNDS", "ENDATA")

    def __init__(self, file: str, relax: bool) -> None:
        self.file, self.relax, self.at = file, relax, 0
        self.section, self.name, self.maximise, self.by_glpk, self.whole = "", "", False, False, False
        self.rows: dict[str, _Row] = {}
        self.columns: dict[str, list[Optional[float]]] = {}
        self.sets: dict[str, str] = {}

    def fault(self, what: str) -> FileError:
        return FileError(f"{self.file}:{self.at}: {what}")

    def line(self, line: str) -> bool:
        """Takes a line; true at ENDATA."""
        if line.startswith("*"):
            self.by_glpk |= line.startswith("* Format:") and line.endswith("MPS")
            return False
        words = line.split()
        if not words:
            return False
        if not line[0].isspace():
            return self.header(words)
        parts = {
            "OBJSENSE": self.sense,
            "ROWS": self.row,
            "COLUMNS": self.column,
            "RHS": self.right,
            "RANGES": self.right,
            "BOUNDS": self.bound,
        }
        if self.section not in parts:
            raise self.fault(f"expected a section such as NAME or ROWS, found `{line.strip()}`")
        comment = [i for i, word in enumerate(words) if i > 0 and word.startswith("$")]
        parts[self.section](words[: comment[0]] if comment else words)
        return False

    def header(self, words: list[str]) -> bool:
        if words[0] not in self.SECTIONS:
            raise self.fault(f"expected a section ({', '.join(self.SECTIONS)}), found `{words[0]}`")
        self.section = words[0]
        if words[0] == "NAME":
            self.name = " ".join(words[1:-1] if words[-1] == "FREE" else words[1:])
        elif words[0] == "OBJSENSE" and len(words) > 1:
            self.sense(words[1:])
        return words[0] == "ENDATA"

    def sense(self, words: list[str]) -> None:
        word = words[0].upper()
        if word not in ("MAX", "MAXIMIZE", "MAXIMISE", "MIN", "MINIMIZE", "MINIMISE"):
            raise self.fault(f"expected MAX or MIN, found `{words[0]}`")
        self.maximise = word.startswith("MAX")

    def row(self, words: list[str]) -> None:
        if len(words) != 2 or words[0].upper() not in ("N", "L", "G", "E"):
            raise self.fault(f"expected a row's kind N, L, G or E and its name, found `{' '.join(words)}`")
        if words[1] in self.rows:
            raise self.fault(f"row `{words[1]}` stands twice")
        self.rows[words[1]] = _Row(words[0].upper())

    def column(self, words: list[str]) -> None:
        if len(words) == 3 and words[1] == "'MARKER'":
            self.whole = words[2] == "'INTORG'"
            return
        if len(words) not in (3, 5):
            raise self.fault(f"expected a column's name, then rows and numbers, found `{' '.join(words)}`")
        name = words[0]
        if name in self.columns and name != next(reversed(self.columns)):
            raise self.fault(f"column `{name}` stands twice, with others between")
        if name not in self.columns:
            self.columns[name] = [None, None]
            if self.whole:
                self.be_whole(name)
        place = len(self.columns) - 1
        for row, number in zip(words[1::2], words[2::2]):
            entries = self.named(row).entries
            if place in entries:
                raise self.fault(f"column `{name}` has row `{row}` twice")
            entries[place] = self.number(number)

    def be_whole(self, name: str) -> None:
        if not self.relax:
            raise self.fault(f"column `{name}` is to be whole, which this solver doesn't keep (relax allows fractions)")
        if self.columns[name] == [None, None]:
            self.columns[name] = [0.0, 1.0]

    def takes(self, name: str) -> bool:
        """The first set of RHS, RANGES and BOUNDS counts; lines of others are left out."""
        return self.sets.setdefault(self.section, name) == name

    def right(self, words: list[str]) -> None:
        if len(words) not in (2, 3, 4, 5):
            raise self.fault(f"expected rows with a number each, found `{' '.join(words)}`")
        name = words.pop(0) if len(words) % 2 else ""
        if self.takes(name):
            for row, number in zip(words[::2], words[1::2]):
                setattr(self.named(row), "rhs" if self.section == "RHS" else "range", self.number(number))

    def bound(self, words: list[str]) -> None:
        kind, bare = words[0].upper(), words[0].upper() in ("FR", "MI", "PL", "BV")
        rest = words[1:]
        number = None if bare and rest and rest[-1] in self.columns else rest.pop() if rest else None
        name = rest.pop() if rest else ""
        if name not in self.columns:
            raise self.fault(f"expected a column named in COLUMNS, found `{name}`")
        if not self.takes(rest.pop() if rest else ""):
            return
        bounds = self.columns[name]
        if kind in ("UP", "UI", "LO", "LI", "FX"):
            value = self.number(number or "")
            value = math.copysign(math.inf, value) if abs(value) >= 1e20 else value
            if kind in ("LI", "UI"):
                self.be_whole(name)
            bounds[0] = value if kind in ("LO", "LI", "FX") else bounds[0]
            bounds[1] = value if kind in ("UP", "UI", "FX") else bounds[1]
        elif bare:
            if kind == "BV":
                self.be_whole(name)
            bounds[0] = {"FR": -math.inf, "MI": -math.inf, "BV": 0.0}.get(kind, bounds[0])
            bounds[1] = {"FR": math.inf, "PL": math.inf, "BV": 1.0}.get(kind, bounds[1])
        else:
            raise self.fault(f"expected a bound's kind UP, LO, FX, FR, MI, PL, BV, LI or UI, found `{kind}`")

    def named(self, row: str) -> _Row:
        if row not in self.rows:
            raise self.fault(f"expected a row named in ROWS, found `{row}`")
        return self.rows[row]

    def number(self, text: str) -> float:
        try:
            return float(text)
        except ValueError:
            raise self.fault(f"expected a number, found `{text}`") from None

    def problem(self) -> Problem:
        first = next((row for row in self.rows.values() if row.kind == "N"), _Row("N"))
        problem = Problem(maximise=self.maximise, name=self.name)
        problem.constant = first.rhs if self.by_glpk else 0.0 - first.rhs
        for j, (name, (lower, upper)) in enumerate(self.columns.items()):
            if lower is None:
                lower = -math.inf if upper is not None and upper < 0 else 0.0
            problem.add_column(first.entries.get(j, 0.0), lower, math.inf if upper is None else upper, name)
        for name, row in self.rows.items():
            for op, rhs in row.ends() if row.kind != "N" else []:
                problem.add_row(row.entries, op, rhs, name)
        return problem


# ---- The program's twin ----


def _shown(value: float) -> str:
    """A double for people, as the program shows it: the shortest digits that give it back, and no minus before a 0."""
    if value == 0:
        return "0"
    mantissa, _, exponent = repr(value).partition("e")
    if exponent and 1e-5 <= abs(value) < 1:
        # Python's repr goes over to an exponent below 1e-4, the program below 1e-5.
        return f"{'-' if value < 0 else ''}0.{'0' * (-int(exponent) - 1)}{mantissa.lstrip('-').replace('.', '')}"
    return mantissa.removesuffix(".0") + (f"e{int(exponent)}" if exponent else "")


def _of_1024(number: int) -> str:
    """A number of 1/1024, exactly."""
    whole, rest = divmod(abs(number), 1024)
    decimals = f"{rest * 9_765_625:010}".rstrip("0") or "0"
    return f"{'-' if number < 0 else ''}{whole}.{decimals}"


def _counted(n: int, one: str, more: str) -> str:
    return f"{n} {one if n == 1 else more}"


def _table(heads: Sequence[str], sides: str, lines: Iterable[Sequence[str]]) -> str:
    """Cells in columns, two blanks between them; each side is < or >."""
    lines = [heads, *lines]
    widths = [max(len(line[k]) for line in lines) for k in range(len(heads))]
    cells = (["{:{}{}}".format(*cell) for cell in zip(line, sides, widths)] for line in lines)
    return "".join("  ".join(line).rstrip() + "\n" for line in cells)


def _head(problem: Problem, status: str, objective: str, told: Union[Solution, Error]) -> str:
    sizes = [
        _counted(len(problem.costs), "column", "columns"),
        _counted(len(problem.rows), "row", "rows"),
        _counted(sum(map(len, problem.rows)), "entry", "entries"),
        "maximise" if problem.maximise else "minimise",
    ]
    out = f"plan       {problem.name or '(no name)'}: {', '.join(sizes)}\nstatus     {status}\n"
    before = "" if told.costless_steps is None else f", after {told.costless_steps} with costs 0"
    return out + (f"objective  {objective}\nsteps      {told.steps}{before}\n" if objective else "")


def _bound(bound: float) -> str:
    return "none" if math.isinf(bound) else _shown(bound)


def _solved(problem: Problem, solution: Solution) -> str:
    """What `tevalumi solve` prints of an optimal plan."""
    bounds = (map(_bound, side) for side in (problem.lowers, problem.uppers))
    prices = (map(_shown, side) for side in (problem.costs, solution.prices))
    columns = list(zip(problem.column_names, map(_shown, solution), *bounds, *prices, solution.stands))
    activities = (sum((coeff * solution[column] for column, coeff in row), 0.0) for row in problem.rows)
    slacks = (right if slack is None else slack for slack, right in zip(solution.slacks, problem.rhs))
    signs = (_SIGNS[_op(op)] for op in problem.ops)
    sums = (map(_shown, side) for side in (problem.rhs, slacks, solution.multipliers))
    rows = list(zip(problem.row_names, map(_shown, activities), signs, *sums, solution.row_stands))
    heads = ("column", "value", "lower", "upper", "cost", "price", "stands")
    out = "\n" + _table(heads, "<>>>>><", columns) if columns else ""
    heads = ("row", "activity", "", "right side", "slack", "multiplier", "stands")
    return out + ("\n" + _table(heads, "<><>>><", rows) if rows else "")


def _audited(problem: Problem, sheet: Sheet) -> str:
    """The sheet's rows, columns and totals, and its verdict."""
    mults = map(_of_1024, sheet.mults)
    rows = zip(problem.row_names, map(str, sheet.activities), sheet.ops, map(str, sheet.rhs), mults)
    bounds = ([str(bound) if bound is not None else "none" for bound in side] for side in (sheet.lowers, sheet.uppers))
    prices = (_of_1024(int(price * 1024)) for price in sheet.prices)
    columns = zip(problem.column_names, map(str, sheet.amounts), *bounds, map(str, sheet.costs), prices)
    verdict, gap = sheet.verdict(), ""
    sign, cost, floor = (-1, "worth", "ceiling") if problem.maximise else (1, "cost", "floor")
    out = "\n" + _table(("row", "activity", "", "right side", "multiplier"), "<><>>", rows)
    out += "\n" + _table(("column", "amount", "lower", "upper", "cost", "price"), "<>>>>>", columns)
    out += f"\n{cost:<9}  {sign * sheet.cost}\n"
    if verdict.gap is not None:
        out += f"{floor:<9}  {_of_1024(int(sign * sheet.floor * 1024))}\n"
        gap = _of_1024(int(verdict.gap * 1024))
        out += f"gap        {gap}\n"
    if problem.constant:
        out += f"The constant {_shown(problem.constant)} is in none of these; every plan has it alike.\n"
    if problem.maximise:
        out += "In the tables costs and prices have their signs turned, because the sheet minimises.\n"
    return f"{out}\n{_sentence(sheet, verdict.kind, gap, problem)}\n"


def _optimal(problem: Problem, solution: Solution) -> str:
    """The sentence of an optimal plan. It names what counts as 0 only because its price is under EPS."""
    better = "better" if problem.maximise else "cheaper"
    excess = f"; the largest excess is {solution.excess!r}" if solution.excess else ""
    names = [f"column {name}" for name in problem.column_names] + [f"row {name}" for name in problem.row_names]
    prices = solution.prices + [0.0 - multiplier for multiplier in solution.multipliers]
    # A row at its upper limit has its slack at the lower one.
    slacks = [{"at upper": "at lower", "at lower": "at upper"}.get(stands, stands) for stands in solution.row_stands]
    gains = {"at lower": lambda price: price < 0, "at upper": lambda price: price > 0, "free": bool}
    small = [
        f"that of {name}, {_shown(price)}, counts as 0"
        for name, price, stands in zip(names, prices, solution.stands + slacks)
        if stands in gains and gains[stands](problem._turned(price))
    ]
    if not small:
        return f"Optimal: no column would make the plan {better}, and the final check accepts it{excess}."
    more = f", and {_counted(len(small) - 1, 'other does', 'others do')} too" if len(small) > 1 else ""
    rest = f"no other would make the plan {better}, and the final check accepts it{excess}."
    return f"Optimal but for prices under 1e-8 in size: {small[0]}{more}; {rest}"


def _told(words: Sequence[str]) -> tuple[int, str, str]:
    """The exit status, and what goes to standard output and standard error."""
    options = [word for word in words if word.startswith("--")]
    files = [word for word in words if not word.startswith("--")]
    if len(files) != 1 or set(options) - {"--audit", "--relax", "--plain"}:
        return 2, "", "usage: python3 -m tevalumi [--audit] [--relax] [--plain] FILE\n"
    try:
        _library()
        problem = read(files[0], "--relax" in options)
        problem.plain = "--plain" in options
    except (FileError, Error, OSError) as error:
        return 2, "", f"tevalumi: {error}\n"
    try:
        solution = problem.solve()
        out = _head(problem, f"0, {_optimal(problem, solution)}", _shown(solution.objective), solution)
        if "--audit" not in options:
            return 0, out + _solved(problem, solution), ""
        sheet = problem.audit()
        return 0 if sheet.verdict().gap is not None else 4, out + _audited(problem, sheet), ""
    except Error as error:
        number, _, sentence = str(error).partition(": ")
        objective = f"{_shown(error.objective)} after the last whole step, no result" if error.number >= 20 else ""
        out = _head(problem, f"{number}, {sentence}.", objective, error)
        return 2 if error.number == 12 else 1 if error.number < 20 else 3, out, ""


def main(words: Sequence[str]) -> int:
    """`python3 -m tevalumi [--audit] [--relax] [--plain] FILE`: solves the plan in FILE, and with --audit shows its sheet.

    The exit status is the program's: 0 Optimal, 1 refused, 3 not solved, 4 an audit that shows no gap, 2 a wrong
    command line or file, or a disk that is full. A reader that has gone away is no fault.
    """
    status, out, err = _told(words)
    print(err, end="", file=sys.stderr)
    try:
        print(out, end="", flush=True)
    except OSError as error:
        # What is left goes nowhere, so that Python's own end doesn't write it again.
        os.dup2(os.open(os.devnull, os.O_WRONLY), sys.stdout.fileno())
        if not isinstance(error, BrokenPipeError):
            print(f"tevalumi: standard output: can't be written: {error.strerror}", file=sys.stderr)
            return 2
    return status


if __name__ == "__main__":
    sys.exit(main(sys.argv[1:]))
