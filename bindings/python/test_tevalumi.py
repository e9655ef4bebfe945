"""The module's tests: python3 -m unittest, in this folder. TEVALUMI_PROGRAM names the program to be compared with."""

import array
import contextlib
import doctest
import io
import json
import math
import os
import re
import subprocess
import sys
import tempfile
import unittest
from fractions import Fraction
from pathlib import Path

import tevalumi
from tevalumi import Error, FileError, Place, Problem, Sheet

try:
    import numpy
except ImportError:
    numpy = None

PLANS = Path(__file__).resolve().parents[1] / "rust" / "plans"
PROGRAM = os.environ.get("TEVALUMI_PROGRAM")


def load_tests(_loader, tests, _pattern):
    tests.addTests(doctest.DocTestSuite(tevalumi))
    return tests


def n2(**settings):
    """Night case N2: costs -3, -1; bounds 0 to none, 0 to 2; x0 + x1 <= 4."""
    return Problem.of([-3, -1], [[1, 1]], ["<="], [4], uppers=[math.inf, 2], **settings)


def twin(*words):
    """Exit status, standard output and standard error of `python3 -m tevalumi`."""
    out, err = io.StringIO(), io.StringIO()
    with contextlib.redirect_stdout(out), contextlib.redirect_stderr(err):
        status = tevalumi.main([str(word) for word in words])
    return status, out.getvalue(), err.getvalue()


def program(*words):
    """What the program prints."""
    return subprocess.run([PROGRAM, *words], capture_output=True, text=True, check=True).stdout


class Problems(unittest.TestCase):
    def raises(self, number, call, place=None):
        with self.assertRaises(Error) as caught:
            call()
        self.assertEqual((caught.exception.number, caught.exception.place), (number, place))
        return caught.exception

    def test_n2(self):
        solution = n2().solve()
        self.assertEqual((solution.objective, solution.steps, solution.excess), (-12.0, 2, 0.0))
        self.assertEqual((solution.values, solution.slacks), ([4.0, 0.0], [0.0]))
        self.assertEqual((solution.prices, solution.multipliers), ([0.0, 2.0], [-3.0]))
        self.assertEqual((list(solution), len(solution), solution[0], solution["x1"]), ([4.0, 0.0], 2, 4.0, 0.0))

    def test_maximising_turns_what_is_shown(self):
        solution = Problem.of([3, 1], [[1, 1]], ["<="], [4], uppers=[math.inf, 2], maximise=True).solve()
        self.assertEqual((solution.objective, solution.values), (12.0, [4.0, 0.0]))
        self.assertEqual((solution.prices, solution.multipliers), ([0.0, -2.0], [3.0]))

    def test_arrays_are_taken_as_lists_are(self):
        numbers = array.array("d", [-3, -1])
        rows = [array.array("d", [1, 1])]
        solution = tevalumi.solve(numbers, rows, ("<=",), array.array("d", [4]), uppers=array.array("d", [math.inf, 2]))
        self.assertEqual(solution.values, [4.0, 0.0])

    def test_terms_in_any_order_and_rows_without_terms(self):
        problem = Problem(maximise=True)
        x, y = problem.add_column(1), problem.add_column(2, 0, 3)
        problem.add_row([(y, 1), (x, 1)], "<=", 4)
        self.assertEqual(problem.add_row({}, "=", 0), 1)
        problem.add_row({x: 2, y: 1}, ">=", 2)
        solution = problem.solve()
        self.assertEqual((solution.objective, solution.values), (7.0, [1.0, 3.0]))
        self.assertEqual(solution.slacks[1], None)

    def test_each_refusal_has_its_number_and_place(self):
        self.raises(1, Problem.of([0] * 129, [], [], []).solve)
        self.raises(1, n2(budget=10_001).solve)
        self.raises(1, n2(budget=-1).solve)
        self.raises(1, lambda: Problem.of([1], [[1]], ["<="], []))
        self.raises(2, n2(tolerance=2.0).solve)
        self.raises(2, Problem.of([math.nan], [], [], []).solve)
        self.raises(2, lambda: Problem.of([1], [[1]], ["<"], [1]))
        problem = n2()
        problem.add_row([(1, 1), (1, 2)], "<=", 3)
        self.raises(3, problem.solve, Place("entry", 1, 1))
        problem = n2()
        problem.add_row([(-1, 1)], "<=", 3)
        self.raises(3, problem.solve, Place("entry", 1, 0))
        error = self.raises(4, Problem.of([1, 1], [], [], [], [0, 3], [9, 2]).solve, Place("column", 1))
        self.assertEqual(str(error), "4: a lower bound is above its upper bound (column 1)")
        self.raises(5, Problem.of([1], [[0], [0]], ["=", "<="], [0, -1]).solve, Place("row", 1))

    def test_what_is_not_solved_says_how_far_it_came(self):
        error = self.raises(20, Problem.of([-1], [], [], []).solve)
        self.assertTrue(error.sentence.startswith("unbounded: no bound and no row's coefficient"), error.sentence)
        error = self.raises(21, n2(budget=1).solve)
        self.assertEqual((error.steps, error.objective), (1, -8.0))

    def test_more_is_wanted_than_there_is(self):
        wanted = {"lowers": [0, 0, 0], "uppers": [50, 300, 750]}
        solution = tevalumi.solve([3, 2, 5], [[1, 1, 1]], ["<="], [900], maximise=True, **wanted)
        self.assertEqual((solution.objective, solution.steps), (4100.0, 1))
        self.assertEqual((solution.values, solution.multipliers), ([50.0, 100.0, 750.0], [2.0]))

    def test_no_column_mends_a_row(self):
        # Row 0 is dropped.
        problem = Problem.of([1], [[0], [1], [1]], ["=", "<=", ">="], [0, 2, 3])
        error = self.raises(26, problem.solve, Place("row", 1))
        self.assertEqual((error.steps, error.objective, error.excess), (1, 3.0, 0.0))
        self.assertIn("1e-8", error.sentence)

    def test_a_start_that_neither_kind_of_step_begins_at(self):
        problem = Problem.of([-1, 1], [[1, 1], [1, 1]], [">=", "<="], [2, 5])
        solution = problem.solve()
        self.assertEqual((solution.objective, solution.values), (-5.0, [5.0, 0.0]))
        self.assertEqual((solution.steps, solution.costless_steps), (1, 1))
        problem.plain = True
        error = self.raises(7, problem.solve)
        self.assertIn("a column has no bound on the side that its cost prefers", error.sentence)
        self.assertIsNone(error.costless_steps)
        error = self.raises(20, Problem.of([-1], [[1]], [">="], [1]).solve)
        self.assertEqual((error.steps, error.costless_steps), (0, 1))

    def test_other_costs_from_a_solution_on(self):
        solution = tevalumi.solve([-3, -1], [[1, 1]], ["<="], [4], uppers=[math.inf, 2])
        other = solution.with_costs([-3, -5])
        self.assertEqual((other.objective, other.values, other.costless_steps), (-16.0, [2.0, 2.0], None))
        self.assertEqual((solution.values, other.problem.costs), ([4.0, 0.0], [-3.0, -5.0]))
        self.assertEqual(other.fix(0, 1).with_costs([0, 1]).values, [1.0, 0.0])
        self.raises(1, lambda: solution.with_costs([1]))
        self.raises(2, lambda: solution.with_costs([1, math.nan]))

    def test_the_final_check_names_the_row(self):
        # Row 0 is dropped, and 0.1 * (10 / 3 / 0.1) isn't 10 / 3 in doubles.
        problem = Problem.of([-1], [[0], [0.1]], ["=", "<="], [0, 10 / 3], tolerance=0.0)
        error = self.raises(24, problem.solve, Place("row", 1))
        self.assertEqual(error.excess, 2.0**-51)

    def test_constants_of_a_file_are_in_the_objective(self):
        problem = n2()
        problem.constant = 5.0
        self.assertEqual(problem.solve().objective, -7.0)


class Sections(unittest.TestCase):
    def test_they_stand_where_the_header_says(self):
        places = {}
        for line in (PLANS.parents[2] / "include" / "tevalumi.h").read_text().splitlines():
            words = line.split(maxsplit=2)
            if words[:1] == ["#define"] and len(words) > 2:
                places[words[1]] = eval(words[2], {}, places)
        names = "NB_VARS FLAGS KEPT COUNTS NUMBERS PRICES DOUBLES FACTOR_NUMBERS FACTOR_COEFFS"
        names += " STAGE_MULTS STAGE SECOND HANDED WHOLE"
        for name in names.split():
            self.assertEqual(getattr(tevalumi, f"_{name}"), places[f"TEVALUMI_{name}"], name)


    def test_every_number_of_the_crate_has_a_sentence(self):
        text = (PLANS.parent / "src" / "raw.rs").read_text()
        numbers = re.findall(r"^    [A-Z][A-Za-z]+ = (\d+),$", text, re.MULTILINE)
        self.assertGreater(len(numbers), 20)
        # 0 is no error, and 35 to 37 are a journal's, which the module doesn't have.
        for number in set(map(int, numbers)) - {0, 35, 36, 37}:
            self.assertIn(number, tevalumi._SENTENCES)


class Sheets(unittest.TestCase):
    def raises(self, number, call, *words):
        with self.assertRaises(Error) as caught:
            call(*words)
        self.assertEqual(caught.exception.number, number)
        return caught.exception

    def state(self, sheet):
        kept = (sheet.activities, sheet.prices, sheet.cost, sheet.floor, sheet.counts)
        plan = (sheet.matrix, sheet.costs, sheet.lowers, sheet.uppers, sheet.rhs, sheet.ops)
        return (plan, sheet.amounts, sheet.mults, kept)

    def test_n5(self):
        sheet = n2().audit()
        self.assertEqual((sheet.amounts, sheet.mults), ([4, 0], [-3072]))
        self.assertEqual((sheet.lowers, sheet.uppers), ([0, 0], [None, 2]))
        self.assertEqual((sheet.cost, sheet.floor, sheet.activities), (-12, -12, [4]))
        self.assertEqual((sheet.prices, sheet.counts), ([0, 2], [0, 0, 0, 0]))
        self.assertEqual((sheet.verdict().kind, sheet.verdict().gap), ("gap", 0))

    def test_each_edit(self):
        sheet = n2().audit()
        sheet.set_multiplier(0, -4096)
        self.assertEqual(sheet.verdict().gap, 4)
        sheet.set_multiplier(0, -2048)
        self.assertEqual((sheet.verdict().kind, sheet.verdict().gap), ("no floor", None))
        sheet.set_multiplier(0, -3073)
        self.assertEqual(sheet.verdict().gap, Fraction(4, 1024))
        sheet.set_amount(0, 5)
        self.assertEqual(sheet.verdict().kind, "not a plan")
        sheet.set_right(0, 6)
        sheet.set_cost(1, -2)
        sheet.set_lower(1, 1)
        sheet.set_upper(0, 9)
        sheet.set_upper(1, None)
        sheet.set_coefficient(0, 1, 7)
        self.assertEqual((sheet.rhs, sheet.costs, sheet.lowers), ([6], [-3, -2], [0, 1]))
        self.assertEqual((sheet.uppers, sheet.matrix), ([9, None], [[1, 7]]))
        sheet.set_lower(0, None)
        self.assertEqual(sheet.lowers, [None, 1])
        fresh = Sheet(
            sheet.matrix, sheet.costs, sheet.ops, sheet.rhs, sheet.amounts, sheet.mults, sheet.lowers, sheet.uppers
        )
        self.assertEqual(self.state(sheet), self.state(fresh))

    def test_a_refused_edit_changes_nothing(self):
        sheet = n2().audit()
        before = self.state(sheet)
        self.raises(11, sheet.set_amount, 2, 0)
        self.raises(11, sheet.set_amount, -1, 0)
        self.raises(12, sheet.set_cost, 0, 2**20 + 1)
        self.raises(12, sheet.set_cost, 0, 2**64)
        self.raises(12, sheet.set_cost, 0, 0.5)
        self.raises(13, sheet.set_lower, 1, 3)
        self.raises(15, sheet.edit, 10, 0, 0, 0)
        self.raises(16, sheet.edit, 0, 0, 0, 0)
        self.assertEqual(self.state(sheet), before)

    def test_what_is_not_opened(self):
        one = ([[1]], [1], ["<="], [1], [0], [0])
        self.raises(11, lambda: Sheet([[1, 2]], *one[1:], [0], [1]))
        self.raises(11, lambda: Sheet(*one, [], []))
        self.raises(12, lambda: Sheet([[4097]], *one[1:], [0], [1]))
        self.raises(13, lambda: Sheet(*one, [2], [1]))
        self.raises(12, Problem.of([0.5], [[1]], ["<="], [1]).audit)
        error = self.raises(12, Problem.of([-1], [[1]], ["<="], [70_000]).audit)
        self.assertEqual(error.place, Place("column", 0))

    def test_none_exists(self):
        sheet = Sheet([[1]], [0], [">="], [5], [0], [1024], [0], [4])
        self.assertEqual(sheet.verdict().sentence, "No plan exists, whole or fractional.")

    def test_files(self):
        sheet = n2().audit()
        file = bytearray(sheet.to_bytes())
        self.assertEqual(len(file), 12 * 512)
        self.assertEqual(self.state(Sheet.from_bytes(bytes(file))), self.state(sheet))
        file[600] ^= 1
        error = self.raises(32, Sheet.from_bytes, bytes(file))
        self.assertEqual(str(error), "32: a block's check is wrong (block 1)")
        self.raises(33, Sheet.from_bytes, b"")


class Nights(unittest.TestCase):
    def frost(self, **settings):
        """8 ms of air; an alarm wants 6, soil 9."""
        return tevalumi.night([[1, 1]], [-1, 0], [0, -9], ["<="], [8], **{"uppers": [6, 9], **settings})

    def test_alarms_first(self):
        told = self.frost()
        self.assertEqual((told.case, told.number, told.amounts), ("handed", 7, [6, 2]))
        self.assertEqual((told.alarm_cost, told.alarm_gap), (-6, Fraction(0)))
        self.assertEqual(told.sentence, "alarms first, then the rest: the amounts are those of the second stage")
        self.assertEqual((told.first.status, told.first.audit, told.first.sheet.amounts), (0, "judged", [6, 0]))
        sheet = told.second.sheet
        self.assertEqual((sheet.matrix, sheet.rhs), ([[1, 1], [-1, 0]], [8, -6]))
        self.assertEqual((sheet.cost, sheet.mults, sheet.verdict().gap), (-18, [-9216, -9216], 0))

    def test_arrays_and_absent_bounds(self):
        rows = [array.array("q", [1, 1])]
        costs = array.array("q", [-1, 0]), array.array("q", [0, -9])
        told = tevalumi.night(rows, *costs, ["<="], [8.0], lowers=[0, -math.inf], uppers=[6, 9])
        self.assertEqual(told.amounts, [6, 2])
        self.assertEqual(told.first.sheet.lowers, [0, None])

    def test_the_first_stands(self):
        told = self.frost(uppers=[6, math.inf])
        self.assertEqual((told.case, told.amounts, told.alarm_cost), ("the first stands", [6, 0], -6))
        self.assertEqual((told.second.status, told.second.audit, told.second.sheet), (7, "not run", None))
        self.assertTrue(told.second.sentence.startswith("7: a row isn't kept at the start"), told.second.sentence)

    def test_each_answer(self):
        one = {"lowers": [0], "uppers": [1]}
        rows = [[1]] * 96
        cases = [
            (self.frost(budget=0, lowers=[0, 0]), 6),
            (self.frost(tolerance=2.0), 1),
            (tevalumi.night(rows, [-1], [0], ["<="] * 96, [9] * 96, **one), 2),
            (tevalumi.night([[1] * 128] * 16, [-1] * 128, [0] * 128, ["<="] * 16, [128] * 16, None, [1] * 128), 3),
            (tevalumi.night([[1]], [-4097], [0], ["<="], [9], **one), 4),
            (tevalumi.night([], [-4096] * 9, [0] * 9, [], [], None, [65536] * 9), 5),
        ]
        for told, number in cases:
            self.assertEqual(told.number, number)
            self.assertEqual(told.amounts is None, number < 6)
        self.assertEqual(cases[4][0].sentence, "nothing is handed out: the alarm cost of column 0 is above 4,096 in size")
        self.assertEqual((cases[5][0].alarm_cost, cases[5][0].first.sheet.cost), (None, -9 * 2**28))

    def test_why_a_first_stage_shows_no_gap(self):
        first = tevalumi.night([[0], [1]], [-1], [0], ["<=", "<="], [9, 1], [3], [2]).first
        self.assertEqual((first.status, first.sentence), (4, "4: a lower bound is above its upper bound (column 0)"))
        # Row 0 is dropped.
        first = tevalumi.night([[0], [1], [1]], [1], [0], ["=", "<=", ">="], [0, 2, 3]).first
        self.assertEqual((first.status, first.audit), (26, "not run"))
        self.assertTrue(first.sentence.endswith(" (row 1)"), first.sentence)
        first = tevalumi.night([[1]], [-1], [0], ["<="], [70_000]).first
        self.assertEqual((first.audit, first.sheet), ("not whole", None))
        self.assertEqual(first.sentence, "the amount 70000.0 of column 0 is over the sheet's limit")
        first = tevalumi.night([[1]], [2**21], [0], ["<="], [9], None, [9]).first
        self.assertEqual(first.audit, "not opened")
        self.assertTrue(first.sentence.startswith("the sheet isn't opened: 12: "), first.sentence)
        told = tevalumi.night([[2]], [1], [0], ["="], [3], None, [9])
        self.assertEqual((told.first.audit, told.alarm_gap), ("judged", None))
        self.assertEqual(told.first.sheet.verdict().kind, "not a plan")
        self.assertEqual(tevalumi.night([[1]] * 97, [0], [0], ["<="] * 97, [0] * 97).first.status, 1)

    def test_what_is_no_plan_in_whole_numbers(self):
        for number, call in (
            (12, lambda: self.frost(uppers=[6, 2.5])),
            (12, lambda: tevalumi.night([[0.5]], [0], [0], ["<="], [1])),
            (1, lambda: tevalumi.night([[1, 1]], [0], [0], ["<="], [1])),
            (1, lambda: tevalumi.night([[1]], [0], [0], ["<="], [])),
            (1, lambda: tevalumi.night([[1]], [0], [0, 0], ["<="], [1])),
            (2, lambda: tevalumi.night([[1]], [0], [0], ["<"], [1])),
        ):
            with self.assertRaises(Error) as caught:
                call()
            self.assertEqual(caught.exception.number, number)

    @unittest.skipUnless(PROGRAM, "no program is named")
    def test_the_program_tells_the_same_night(self):
        file = PLANS / "night-as-priced.mps"
        problem = tevalumi.read(file)
        told = json.loads(program("night", file, "--alarms", "alarm", "--json"))
        alarm = [name.startswith("alarm.") for name in problem.column_names]
        costs = [[cost if own == first else 0 for cost, own in zip(problem.costs, alarm)] for first in (True, False)]
        matrix = [[0] * len(alarm) for _ in problem.rows]
        uppers = list(problem.uppers)
        for entries, row, right in zip(problem.rows, matrix, problem.rhs):
            for column, coeff in entries:
                row[column] = coeff
            if len(entries) == 1:
                uppers[entries[0][0]] = right
        here = tevalumi.night(matrix, *costs, problem.ops, problem.rhs, problem.lowers, uppers)
        self.assertEqual((here.number, here.case), (told["case"], told["name"]))
        self.assertEqual((here.amounts, here.alarm_cost), (told["amounts"], told["alarm_cost"]))
        self.assertEqual(here.alarm_gap * 1024, told["alarm_gap_1024"])
        for stage, name in ((here.first, "first"), (here.second, "second")):
            self.assertEqual((stage.status, stage.steps), (told[name]["status"], told[name]["steps"]))
            self.assertEqual(stage.sheet.mults, told[name]["sheet"]["multipliers_1024"])
            self.assertEqual(stage.sheet.cost, told[name]["sheet"]["cost"])


class Files(unittest.TestCase):
    def read(self, text, **settings):
        with tempfile.TemporaryDirectory() as folder:
            file = Path(folder) / "plan.mps"
            file.write_text(text)
            return tevalumi.read(file, **settings)

    def fault(self, text, says):
        with self.assertRaises(FileError) as caught:
            self.read(text)
        self.assertIn(says, str(caught.exception))

    def test_sections(self):
        problem = self.read(
            "NAME all of it\nOBJSENSE\n MAX\nROWS\n N cost\n N spare\n L a\n G b\n E c\n E d\nCOLUMNS\n"
            " x cost 1 a 2\n x b 3\n y cost 4 c 5 $ a comment\n z d 1 spare 9\n w a 1\n v a 1\n"
            "RHS\n RHS a 10 b 1\n RHS c 2\n RHS cost 7\n OTHER a 99\nRANGES\n R a 4 b 6\n R c -1\n R d 3\n"
            "BOUNDS\n UP B x 8\n MI B y\n UP B y 1e20\n FX B z 2\n UP B w -3\n FR B v\nENDATA\n"
        )
        self.assertEqual((problem.name, problem.maximise, problem.constant), ("all of it", True, -7.0))
        self.assertEqual(problem.costs, [1.0, 4.0, 0.0, 0.0, 0.0])
        self.assertEqual(problem.lowers, [0.0, -math.inf, 2.0, -math.inf, -math.inf])
        self.assertEqual(problem.uppers, [8.0, math.inf, 2.0, -3.0, math.inf])
        self.assertEqual(problem.row_names, ["a", "a", "b", "b", "c", "c", "d", "d"])
        self.assertEqual(problem.ops, ["<=", ">="] * 4)
        self.assertEqual(problem.rhs, [10.0, 6.0, 7.0, 1.0, 2.0, 1.0, 3.0, 0.0])
        self.assertEqual(problem.rows[0], [(0, 2.0), (3, 1.0), (4, 1.0)])

    def test_faults_name_the_line(self):
        self.fault("ROWS\n X cost\nENDATA\n", ":2: expected a row's kind N, L, G or E")
        self.fault("ROWS\n N c\n N c\nENDATA\n", ":3: row `c` stands twice")
        self.fault("ROWS\n N c\nCOLUMNS\n x d 1\nENDATA\n", ":4: expected a row named in ROWS, found `d`")
        self.fault("ROWS\n N c\nCOLUMNS\n x c one\nENDATA\n", ":4: expected a number, found `one`")
        self.fault("ROWS\n N c\nCOLUMNS\n x c 1\nBOUNDS\n UP B y 1\nENDATA\n", ":6: expected a column named in COLUMNS")
        self.fault("ROWS\n N c\n", ":2: expected ENDATA, found the end of the file")
        self.fault("QUADOBJ\n", ":1: expected a section")
        self.fault("ROWS\n N c\nCOLUMNS\n x c 1\n y c 1\n x c 2\nENDATA\n", ":6: column `x` stands twice")

    def test_whole_columns(self):
        text = "ROWS\n N c\nCOLUMNS\n M 'MARKER' 'INTORG'\n x c 1\n M 'MARKER' 'INTEND'\nENDATA\n"
        self.fault(text, ":5: column `x` is to be whole")
        self.assertEqual(self.read(text, relax=True).uppers, [1.0])

    def test_the_twin_says_what_went_wrong(self):
        status, out, err = twin(PLANS / "nowhere.mps")
        self.assertEqual((status, out), (2, ""))
        self.assertIn("nowhere.mps", err)
        self.assertEqual(twin("--bits", PLANS / "two-tunnels.mps")[0], 2)
        status, out, _ = twin(PLANS / "too-little-air.mps")
        self.assertEqual(status, 3)
        self.assertIn("\nstatus     26, the solver finds no column that could mend a row: none that has room", out)
        self.assertIn(" at least 1e-8 in size there (row 2).\nobjective  10 after the last whole step, no result\n", out)

    @unittest.skipUnless(PROGRAM, "no program is named")
    def test_the_program_answers_alike(self):
        for plan in ("two-tunnels", "night-as-priced"):
            file = PLANS / f"{plan}.mps"
            solution = tevalumi.read(file).solve()
            told = json.loads(program("solve", "--json", file))
            self.assertEqual((told["objective"], told["steps"]), (solution.objective, solution.steps))
            self.assertEqual([column["value"] for column in told["columns"]], solution.values)
            self.assertEqual([row["slack"] for row in told["rows"]], solution.slacks)
            self.assertEqual([column["stands"] for column in told["columns"]], solution.stands)
            self.assertEqual([row["stands"] for row in told["rows"]], solution.row_stands)
            self.assertEqual(twin(file), (0, program("solve", file), ""))

    @unittest.skipUnless(PROGRAM, "no program is named")
    def test_the_twin_says_what_eps_decides(self):
        rest = "COLUMNS\n x c -9e-9 r 1\n y c {} s 1\nRHS\n R r 1e9 s 1\nBOUNDS\n FR B y\nENDATA\n"
        with tempfile.TemporaryDirectory() as folder:
            for sense, cost, says in (
                ("MIN", "0", "that of column x, -9e-9, counts as 0; no other would make the plan cheaper"),
                ("MIN", "-2e-9", "that of column x, -9e-9, counts as 0, and 1 other does too; no other"),
                ("MAX", "0", "0, Optimal: no column would make the plan better"),
                ("MAX", "2e-9", "that of column y, 2e-9, counts as 0; no other would make the plan better"),
            ):
                file = Path(folder) / "small.mps"
                head = f"NAME small\nOBJSENSE {sense}\nROWS\n N c\n L r\n L s\n"
                file.write_text(head + rest.format(cost))
                status, out, _ = twin(file)
                self.assertEqual((status, out), (0, program("solve", file)))
                self.assertIn(says, out)

    def test_an_audit_without_a_gap(self):
        with tempfile.TemporaryDirectory() as folder:
            file = Path(folder) / "half.mps"
            file.write_text("NAME half\nROWS\n N c\n E r\nCOLUMNS\n x c 1 r 2\nRHS\n R r 3\nENDATA\n")
            status, out, err = twin("--audit", file)
        self.assertEqual((status, err), (4, ""))
        found = "The whole amounts that were found aren't a plan (1 row is broken)"
        self.assertTrue(out.endswith(f"{found}, so the sheet says nothing about other plans.\n"))

    def test_what_the_twin_can_not_write(self):
        words = [sys.executable, "-m", "tevalumi", PLANS / "night-as-priced.mps"]
        settings = {"cwd": Path(__file__).parent, "stderr": subprocess.PIPE, "text": True, "check": False}
        with open("/dev/full", "w", encoding="utf-8") as full:
            told = subprocess.run(words, stdout=full, **settings)
        says = "tevalumi: standard output: can't be written: No space left on device\n"
        self.assertEqual((told.returncode, told.stderr), (2, says))
        reader, writer = os.pipe()
        os.close(reader)
        told = subprocess.run(words, stdout=writer, **settings)
        os.close(writer)
        self.assertEqual((told.returncode, told.stderr), (0, ""))

    @unittest.skipUnless(PROGRAM, "no program is named")
    def test_the_program_judges_alike(self):
        for plan in ("two-tunnels", "night-as-priced"):
            file = PLANS / f"{plan}.mps"
            told = json.loads(program("audit", "--json", file))["sheet"]
            sheet = tevalumi.read(file).audit()
            for column, amount in enumerate(told["amounts"]):
                sheet.set_amount(column, amount)
            for row, multiplier in enumerate(told["multipliers_1024"]):
                sheet.set_multiplier(row, multiplier)
            self.assertEqual((sheet.cost, sheet.floor * 1024), (told["cost"], told["floor_1024"]))
            self.assertEqual((sheet.verdict().kind, sheet.verdict().gap * 1024), (told["verdict"], told["gap_1024"]))
            self.assertEqual(sheet.activities, told["activities"])

    @unittest.skipUnless(PROGRAM, "no program is named")
    def test_a_kept_plan_is_read(self):
        with tempfile.TemporaryDirectory() as folder:
            kept = Path(folder) / "plan.tev"
            program("keep", PLANS / "two-tunnels.mps", "-o", kept)
            sheet = Sheet.from_bytes(kept.read_bytes())
            self.assertEqual((sheet.costs, sheet.verdict().kind), ([-6, -2], "gap"))
            self.assertEqual(sheet.to_bytes(), kept.read_bytes())
            self.assertEqual(tevalumi.read(kept).solve().values, [4.5, 0.0])

    def test_a_library_that_is_missing(self):
        words = [sys.executable, "-m", "tevalumi", PLANS / "two-tunnels.mps"]
        lost = {**os.environ, "TEVALUMI_LIBRARY": "nowhere.so"}
        told = subprocess.run(words, env=lost, cwd=Path(__file__).parent, capture_output=True, text=True, check=False)
        self.assertEqual((told.returncode, told.stdout), (2, ""))
        self.assertIn("`make python`", told.stderr)

    def test_the_twin_shows_a_sheet(self):
        status, out, err = twin("--audit", PLANS / "two-tunnels.mps")
        self.assertEqual((status, err), (0, ""))
        none = "no plan, whole or fractional, is cheaper by more than 3.0"
        self.assertTrue(out.endswith(f"This whole plan, which costs -24, is the cheapest one to within 3.0: {none}.\n"))
        self.assertIn("air         8  <=           9        -3.0\n", out)
        self.assertIn("north        4      0   none    -6    0.0\n", out)

    def test_numbers_are_shown_as_the_program_shows_them(self):
        shown = {0.0: "0", -0.0: "0", 4.5: "4.5", -27.0: "-27", 1e15: "1000000000000000", 1e16: "1e16"}
        shown |= {1.5e-5: "0.000015", -2.5e-5: "-0.000025", 9e-6: "9e-6", 1.25e-7: "1.25e-7"}
        shown |= {1 / 3: "0.3333333333333333", 1.5e300: "1.5e300"}
        for number, text in shown.items():
            self.assertEqual(tevalumi._shown(number), text)


@unittest.skipUnless(numpy, "numpy isn't there")
class Numpy(unittest.TestCase):
    """Arrays and numbers of numpy wherever lists and numbers may stand, with the same answers."""

    def test_a_plan_and_a_fix(self):
        of = numpy.array
        solution = tevalumi.solve(of([-3, -1]), of([[1, 1]]), ["<="], of([4.0]), uppers=of([numpy.inf, 2]))
        self.assertEqual((solution.objective, solution.values), (-12.0, [4.0, 0.0]))
        held = solution.fix(numpy.int64(0), numpy.float64(3))
        self.assertEqual((held.objective, held.values), (-10.0, [3.0, 1.0]))
        self.assertEqual(held.unfix(numpy.int32(0)).values, solution.values)

    def test_a_sheet_and_its_edits(self):
        of = numpy.array
        sheet = Sheet(of([[1, 1]]), of([-3, -1]), ["<="], of([4]), of([4, 0]), of([-3072]), [0, 0], [None, 2])
        self.assertEqual(sheet.verdict().gap, 0)
        sheet.set_amount(numpy.int64(0), numpy.int16(3))
        self.assertEqual((sheet.amounts, sheet.verdict().gap), ([3, 0], 3))

    def test_an_audit_and_a_night(self):
        of = numpy.array
        wholes = of([[1, 1]], dtype=numpy.int16)
        sheet = tevalumi.audit(of([-3, -1], dtype=numpy.int32), wholes, ["<="], of([4]), uppers=of([numpy.inf, 2]))
        self.assertEqual((sheet.amounts, sheet.verdict().gap), ([4, 0], 0))
        bounds = {"lowers": of([0, 0]), "uppers": of([6, 9])}
        told = tevalumi.night(wholes, of([-1, 0]), of([0, -1]), ["<="], of([8]), **bounds)
        self.assertEqual((told.amounts, told.alarm_cost), ([6, 2], -6))


if __name__ == "__main__":
    unittest.main()
