"""The module against the header, the examples, and a reading of formulas of its own. Run in this folder: python3 -m unittest"""

from __future__ import annotations

import doctest
import os
import random
import re
import unittest
from itertools import product
from pathlib import Path
from typing import Dict, List, Tuple

import plumanchor
from plumanchor import Decision, Format, Kind, Operation, Order, Outcome, Quantifier, Reason, Refused, Row

ROOT = Path(__file__).resolve().parents[2]
HEADER = (ROOT / "include/plumanchor.h").read_text()
EXISTS, FOR_ALL, POSITIVE, NEGATIVE, AND, OR = range(1, 7)


def encode(prefix: List[Row], nodes: List[Row], format: Format) -> bytes:
    """The sheet of these rows."""
    rows = prefix + nodes
    numbers = [len(prefix), len(nodes)] + [argument for _, argument in rows]
    digits = [number.to_bytes(format.width, "little") for number in numbers]
    return b"".join(digits[:2]) + bytes(kind for kind, _ in rows) + b"".join(digits[2:])


def random_rows(rng: random.Random, variables: int, nodes: int) -> Tuple[List[Row], List[Row]]:
    """A prefix of so many variables, and a tree of about so many nodes."""
    order = rng.sample(range(1, variables + 1), variables)
    prefix = [(rng.choice((EXISTS, FOR_ALL)), x) for x in order]

    def tree(left: int) -> List[Row]:
        if left <= 1 and variables:
            return [(rng.choice((POSITIVE, NEGATIVE)), rng.choice(order))]
        count = rng.randint(0, min(left, 4))
        children = [tree((left - 1) // max(count, 1)) for _ in range(count)]
        return [(rng.choice((AND, OR)), count)] + [row for child in children for row in child]

    return prefix, tree(nodes)


def random_clauses(rng: random.Random, format: Format) -> bytes:
    """Clauses of three literals over seven variables, which Solve stops at in the room of the sheet alone, more often than not."""
    literals = [[rng.choice((-1, 1)) * x for x in rng.sample(range(1, 8), 3)] for _ in range(14)]
    clauses = "".join(" ".join(map(str, clause)) + " 0\n" for clause in literals)
    return plumanchor.from_qdimacs(f"p cnf 7 14\na 1 2 3 0\ne 4 5 6 7 0\n{clauses}", format)


def holds(prefix: List[Row], nodes: List[Row], values: Dict[int, bool]) -> bool:
    """Whether the formula is true under values for the first variables of its prefix."""
    for kind, x in prefix:
        if x not in values:
            both = [holds(prefix, nodes, {**values, x: value}) for value in (False, True)]
            return any(both) if kind == EXISTS else all(both)
    rows = iter(nodes)

    def node() -> bool:
        kind, argument = next(rows)
        if kind in (POSITIVE, NEGATIVE):
            return values[argument] == (kind == POSITIVE)
        children = [node() for _ in range(argument)]
        return all(children) if kind == AND else any(children)

    return node()


class Header(unittest.TestCase):
    """What the header has, the module has."""

    def constant(self, name: str) -> int:
        return int(re.search(rf"#define PLUMANCHOR_{name} (\d+)", HEADER)[1])

    def test_version(self) -> None:
        self.assertIn(f'#define PLUMANCHOR_VERSION "{plumanchor.__version__}"', HEADER)

    def test_limits(self) -> None:
        for format in Format:
            name = format.name
            self.assertEqual(self.constant(f"{name}_WIDTH"), format.width)
            self.assertEqual(self.constant(f"{name}_VARIABLES"), format.most_variables)
            self.assertEqual(self.constant(f"{name}_NODES"), format.most_nodes)
            self.assertEqual(self.constant(f"{name}_HEADER"), format.header)
            self.assertEqual(self.constant(f"{name}_LONGEST"), format.longest)
        self.assertEqual(self.constant("TRIAL_VARIABLES"), plumanchor.TRIAL_VARIABLES)

    def test_refusals(self) -> None:
        body = HEADER.split("enum plumanchor_refusal {")[1].split("};")[0]
        numbers = {name: int(number) for name, number in re.findall(r"PLUMANCHOR_(\w+) = (\d+)", body)}
        del numbers["ACCEPTED"]
        self.assertEqual(numbers, {reason.name: reason.value for reason in Reason})
        texts = dict(re.findall(r'case PLUMANCHOR_(\w+):\n +return "(.*)";', HEADER))
        del texts["ACCEPTED"]
        self.assertEqual(texts, {reason.name: reason.text for reason in Reason})

    def test_words(self) -> None:
        names = (("order", Order), ("kind", Kind), ("kind", Quantifier), ("step", Operation), ("decision", Decision))
        for enum, members in names:
            body = HEADER.split(f"enum plumanchor_{enum} {{")[1].split("};")[0]
            for member in members:
                self.assertIn(f"PLUMANCHOR_{member.name} = {member.value}", body)

    def test_functions(self) -> None:
        kinds = {"const uint8_t *": "bytes", "uint8_t *": "output", "const size_t *": "numbers", "size_t *": "answers"}
        kinds["const uint32_t *"] = "words"
        declared = {}
        for name, parameters in re.findall(r"^(?:uint64_t|size_t) plumanchor_(\w+)\(([^)]*)\);", HEADER, re.M):
            types = [re.sub(r"\w+$", "", " ".join(one.split())).strip() for one in parameters.split(",")]
            told = []
            while types:
                kind = kinds.get(types.pop(0), "number")
                told.append(kind)
                if kind != "number":
                    self.assertEqual(types.pop(0), "size_t")
            declared[name] = " ".join(told)
        self.assertEqual(declared, plumanchor._DECLARED)


class Examples(unittest.TestCase):
    """The lines of examples/README.md."""

    def test_lines(self) -> None:
        table = (ROOT / "examples/README.md").read_text()
        lines = re.findall(r"^\| ([\w-]+) \|.*\| `(.*)` \|$", table, re.M)
        self.assertGreater(len(lines), 10)
        for name, line in lines:
            sheet, text = ROOT / f"examples/{name}.sheet", ROOT / f"examples/{name}.qdimacs"
            bytes_ = sheet.read_bytes() if sheet.exists() else plumanchor.from_qdimacs(text.read_bytes())
            try:
                told = str(plumanchor.solve(bytes_))
            except Refused as refused:
                told = f"refused 0 0 {refused.number}"
            self.assertEqual(told, line, name)

    def test_documentation(self) -> None:
        self.assertEqual(doctest.testmod(plumanchor).failed, 0)
        folder = os.getcwd()
        self.addCleanup(os.chdir, folder)
        os.chdir(ROOT / "examples")
        page = doctest.testfile(str(ROOT / "bindings/README.md"), module_relative=False)
        self.assertEqual(page.failed, 0)
        self.assertGreater(page.attempted, 3)


class Operations(unittest.TestCase):
    """Each operation on small sheets of both formats, judged by `holds`."""

    def cases(self, count: int, variables: int = 5, nodes: int = 20):
        for seed in range(count):
            rng = random.Random(seed)
            prefix, rows = random_rows(rng, rng.randint(1, variables), rng.randint(1, nodes))
            format = rng.choice(list(Format))
            with self.subTest(seed=seed):
                yield rng, prefix, rows, encode(prefix, rows, format), format, holds(prefix, rows, {})

    def truth(self, sheet: bytes, format: Format) -> bool:
        return plumanchor.trial(sheet, format).verdict

    def test_verdicts(self) -> None:
        for _, prefix, rows, sheet, format, truth in self.cases(300):
            self.assertEqual(plumanchor.check(sheet, format), plumanchor.Sizes(len(prefix), len(rows)))
            self.assertIs(self.truth(sheet, format), truth)
            solved = plumanchor.solve(bytearray(sheet), format)
            self.assertIs(solved.verdict, truth)
            self.assertIs(self.truth(solved.reached, format), truth)

    def test_steps_keep_the_truth(self) -> None:
        made = {"settle": 0, "expand": 0, "outer": 0}
        for rng, prefix, _, sheet, format, truth in self.cases(300):
            tidy = plumanchor.tidy(sheet, format)
            self.assertIs(self.truth(tidy, format), truth)
            x = rng.choice(prefix)[1]
            for name in made:
                try:
                    stepped = getattr(plumanchor, name)(tidy, x, format)
                except Refused as refused:
                    self.assertGreaterEqual(refused.number, Reason.NOT_IN_PREFIX)
                    continue
                made[name] += 1
                stepped = stepped.sheet if name == "outer" else stepped
                self.assertIs(self.truth(stepped, format), truth)
        self.assertTrue(all(made.values()), made)

    def test_execute_asks_quote(self) -> None:
        for _, prefix, _, sheet, format, _ in self.cases(100):
            tidy = plumanchor.tidy(sheet, format)
            try:
                rows = plumanchor.quote(tidy, prefix[-1][1], format)
            except Refused:
                continue
            expanded = plumanchor.expand(tidy, prefix[-1][1], format)
            self.assertEqual(plumanchor.execute(tidy, prefix[-1][1], rows, format), expanded)
            with self.assertRaises(Refused) as raised:
                plumanchor.execute(tidy, prefix[-1][1], rows - 1, format)
            self.assertIs(raised.exception.reason, Reason.ABOVE_CEILING)

    def test_lists_are_single_steps(self) -> None:
        for rng, prefix, _, sheet, format, _ in self.cases(100):
            tidy = plumanchor.tidy(sheet, format)
            steps = [(rng.choice(list(Operation)), rng.choice(prefix)[1]) for _ in range(4)]
            stepped = plumanchor.steps(tidy, steps, format)
            for (operation, x), answer in zip(steps, stepped.answers):
                single = plumanchor.settle if operation is Operation.SETTLE else plumanchor.expand
                try:
                    tidy = single(tidy, x, format)
                    self.assertEqual(answer, len(tidy))
                except Refused as refused:
                    self.assertEqual(str(answer), str(refused))
            self.assertEqual(stepped.sheet, tidy)

    def test_force(self) -> None:
        for _, prefix, rows, sheet, format, _ in self.cases(60, variables=4):
            for count in range(len(prefix)):
                for values in product((0, 1), repeat=count):
                    given = {x: bool(value) for (_, x), value in zip(prefix, values)}
                    kind, x = prefix[count]
                    wins = [holds(prefix, rows, {**given, x: bool(v)}) == (kind == EXISTS) for v in (0, 1)]
                    forced = plumanchor.force(sheet, values, format)
                    self.assertEqual(forced.turn, kind)
                    self.assertEqual(forced.outcome, [[0, 2], [1, 3]][wins[0]][wins[1]])

    def test_guards(self) -> None:
        kept = 0
        for _, prefix, rows, sheet, format, truth in self.cases(300):
            if rows[0][0] != AND:
                with self.assertRaises(Refused) as raised:
                    plumanchor.guards(sheet, format)
                self.assertIs(raised.exception.reason, Reason.ROOT_NOT_AND)
                continue
            found = plumanchor.guards(sheet, format)
            self.assertIs(found.verdict, truth)
            if not truth:
                kept += 1
                self.assertFalse(self.truth(found.kept, format))
        self.assertGreater(kept, 10)

    def test_order(self) -> None:
        for rng, prefix, rows, sheet, format, _ in self.cases(100):
            ordered = plumanchor.sort(sheet, format)
            self.assertIs(plumanchor.compare(sheet, ordered, format), Order.EQUAL)
            other = encode(prefix, random_rows(rng, len(prefix), 10)[1], format)
            one, two = plumanchor.compare(sheet, other, format), plumanchor.compare(other, sheet, format)
            self.assertEqual(one + two, 2)
            with self.assertRaises(Refused) as raised:
                plumanchor.compare(sheet, sheet[:-1], format)
            self.assertEqual(raised.exception.sheet, 2)

    def test_responses_are_best(self) -> None:
        made = 0
        for rng, _, _, sheet, format, _ in self.cases(300):
            tidy = plumanchor.tidy(sheet, format)
            prefix, rows = plumanchor.rows(tidy, format)
            kind, x = rng.choice(prefix)
            try:
                others, function = plumanchor.rows(plumanchor.response(tidy, x, format), format)
            except Refused as refused:
                self.assertIs(refused.reason, Reason.WRONG_BLOCK)
                continue
            made += 1
            self.assertEqual(others, [row for row in prefix if row[1] != x])
            for values in product((False, True), repeat=len(others)):
                given = {y: value for (_, y), value in zip(others, values)}
                answer = holds([], function, given)
                both = [holds([], rows, {**given, x: value}) for value in (False, True)]
                self.assertEqual(both[answer], any(both) if kind == EXISTS else all(both))
        self.assertGreater(made, 100)

    def test_winners(self) -> None:
        won = {True: 0, False: 0}
        for _, _, _, sheet, format, truth in self.cases(300):
            found = plumanchor.strategy(sheet, format)
            self.assertIs(found.verdict, truth)
            solved = plumanchor.solve(sheet, format)
            self.assertEqual((found.settled, found.expanded), (solved.settled, solved.expanded))
            side = Quantifier.EXISTS if truth else Quantifier.FOR_ALL
            self.assertIs(self.truth(plumanchor.claim(sheet, side, found.sheet, format), format), truth)
            won[truth] += 1
        self.assertTrue(all(count > 50 for count in won.values()), won)

    def test_claims(self) -> None:
        won = {True: 0, False: 0}
        for rng, prefix, rows, sheet, format, truth in self.cases(300):
            side = rng.choice((EXISTS, FOR_ALL))
            own = [x for kind, x in prefix if kind == side]
            # A constant or a literal of the other side in front of it for each variable.
            pairs: List[Row] = []
            functions = {}
            for x in own:
                front = prefix[: [y for _, y in prefix].index(x)]
                literals = [(sign, y) for kind, y in front if kind != side for sign in (POSITIVE, NEGATIVE)]
                functions[x] = rng.choice([(AND, 0), (OR, 0), *literals])
                pairs += [(AND, 2), (POSITIVE, x), functions[x]]
            strategy = encode(prefix, [(OR, len(own)), *pairs], format)
            claim = plumanchor.claim(sheet, Quantifier(side), strategy, format)
            others = [y for kind, y in prefix if kind != side]
            wins = True
            for values in product((False, True), repeat=len(others)):
                given = dict(zip(others, values))
                given.update({x: holds([], [function], given) for x, function in functions.items()})
                wins = wins and holds([], rows, given) == (side == EXISTS)
            self.assertEqual(self.truth(claim, format) == (side == EXISTS), wins)
            self.assertTrue(not wins or truth == (side == EXISTS))
            won[wins] += 1
            with self.assertRaises(Refused) as raised:
                plumanchor.claim(sheet, Quantifier(side), strategy[:-1], format)
            self.assertEqual((raised.exception.reason, raised.exception.sheet), (Reason.WRONG_LENGTH, 2))
            with self.assertRaises(Refused) as raised:
                plumanchor.claim(sheet, Quantifier(side), strategy, format, room=3)
            self.assertEqual((raised.exception.reason, raised.exception.sheet), (Reason.NO_ROOM, None))
            if own:
                pairs[2] = (POSITIVE, own[0])
                beyond = encode(prefix, [(OR, len(own)), *pairs], format)
                with self.assertRaises(Refused) as raised:
                    plumanchor.claim(sheet, Quantifier(side), beyond, format)
                row = f"(row {len(prefix) + 1}, counted from 0)"
                self.assertEqual(str(raised.exception), f"sheet 2: refused 27: {Reason.READS_BEYOND.text} {row}")
        self.assertTrue(all(count > 20 for count in won.values()), won)

    def test_certificates(self) -> None:
        shown = {True: 0, False: 0, None: 0}
        for rng, prefix, _, sheet, format, truth in self.cases(600, variables=3, nodes=8):
            codes = [rng.choice(prefix)[1] * 2 + rng.randint(0, 1) for _ in range(rng.randint(0, 3))]
            heads = [0, 0, 0, len(codes), 1 + rng.choice(codes or [0]), 0, 0, len(codes)]
            for verdict in (False, True):
                found = plumanchor.certify(sheet, verdict, heads, codes, format)
                self.assertIn(found.verdict, (verdict, None))
                self.assertTrue(found.verdict in (truth, None) and found.step <= 2)
                shown[found.verdict] += 1
        self.assertTrue(all(count > 20 for count in shown.values()), shown)

    def test_clauses_of_any_sheet(self) -> None:
        named = 0
        for _, prefix, _, sheet, format, truth in self.cases(300, nodes=14):
            made = plumanchor.clauses(sheet, format)
            rows, nodes = plumanchor.rows(made, format)
            self.assertEqual(rows[: len(prefix)], prefix)
            self.assertTrue(all(kind == EXISTS for kind, _ in rows[len(prefix) :]))
            self.assertIs(self.truth(made, format), truth)
            # AND of literals and of ORs of literals.
            self.assertEqual(nodes[0][0], AND)
            self.assertNotIn(AND, [kind for kind, _ in nodes[1:]])
            named += len(rows) > len(prefix)
        self.assertGreater(named, 100)

    def test_searches(self) -> None:
        seen = {decision: 0 for decision in Decision}
        for seed in range(150):
            rng = random.Random(seed)
            format = rng.choice(list(Format))
            sheet = random_clauses(rng, format)
            truth = self.truth(sheet, format)
            enough = plumanchor.decide(sheet, 2**7, 7, format, room=len(sheet))
            self.assertIs(enough.verdict, truth)
            self.assertEqual(enough.decision, int(truth))
            self.assertEqual(plumanchor.decide(sheet, 2**63, 2**63, format, room=len(sheet)), enough)
            budget, places = rng.choice((rng.randint(0, enough.runs), 2**20)), rng.randint(0, 2)
            found = plumanchor.decide(sheet, budget, places, format, room=len(sheet))
            self.assertIn(found.verdict, (truth, None))
            self.assertLessEqual(found.runs, budget)
            seen[found.decision] += 1
        self.assertTrue(all(count > 5 for count in seen.values()), seen)

    def test_split_and_join(self) -> None:
        known = {True: 0, False: 0, None: 0}
        for rng, prefix, rows, sheet, format, truth in self.cases(300):
            k = rng.randint(0, min(len(prefix), 3))
            answers = []
            for values in product((0, 1), repeat=k):
                half = plumanchor.split(sheet, values, format)
                self.assertEqual(plumanchor.rows(half, format)[0], prefix[k:])
                given = {x: bool(value) for (_, x), value in zip(prefix, values)}
                answers.append(self.truth(half, format))
                self.assertIs(answers[-1], holds(prefix, rows, given))
            self.assertIs(plumanchor.join(sheet, k, answers, format), truth)
            fewer = [answer if rng.randint(0, 3) else None for answer in answers]
            joined = plumanchor.join(sheet, k, fewer, format)
            self.assertIn(joined, (truth, None))
            known[joined] += 1
            for k, answers, reason in (
                (len(prefix) + 1, [], Reason.TOO_MANY_VALUES),
                (k, answers + [True], Reason.WRONG_ANSWERS),
                (0, [3], Reason.BAD_ANSWER),
            ):
                with self.assertRaises(Refused) as raised:
                    plumanchor.join(sheet, k, answers, format)
                self.assertIs(raised.exception.reason, reason)
            for values, reason in (([2], Reason.BAD_VALUE), ([0] * (len(prefix) + 1), Reason.TOO_MANY_VALUES)):
                with self.assertRaises(Refused) as raised:
                    plumanchor.split(sheet, values, format)
                self.assertIs(raised.exception.reason, reason)
        self.assertTrue(all(count > 20 for count in known.values()), known)

    def test_conversion(self) -> None:
        for _, prefix, rows, _, _, _ in self.cases(50):
            narrow, wide = (encode(prefix, rows, format) for format in Format)
            self.assertEqual(plumanchor.widen(narrow), wide)
            self.assertEqual(plumanchor.narrow(wide), narrow)

    def test_rows(self) -> None:
        for _, prefix, rows, sheet, format, _ in self.cases(100):
            self.assertEqual(plumanchor.from_rows(prefix, rows, format), sheet)
            self.assertEqual(plumanchor.rows(sheet, format), (prefix, rows))
        for format in Format:
            above = 256**format.width
            for prefix, rows, reason in (
                ([(EXISTS, above + 1)], [(POSITIVE, 1)], Reason.BAD_NUMBER),
                ([(EXISTS, 1)], [(POSITIVE, above + 1)], Reason.UNBOUND),
                ([(EXISTS, 1)], [(AND, above + 1), (POSITIVE, 1)], Reason.NOT_ONE_TREE),
            ):
                with self.assertRaises(Refused) as raised:
                    plumanchor.from_rows(prefix, rows, format)
                self.assertIs(raised.exception.reason, reason)

    def test_part(self) -> None:
        for _, prefix, rows, sheet, format, _ in self.cases(50):
            self.assertEqual(plumanchor.part(sheet, 0, format), bytes(kind for kind, _ in rows))
            self.assertEqual(plumanchor.part(sheet, len(rows), format), b"")

    def test_resume(self) -> None:
        stopped = 0
        for seed in range(60):
            rng = random.Random(seed)
            format = rng.choice(list(Format))
            sheet = random_clauses(rng, format)
            run = plumanchor.solve(sheet, format, room=len(sheet))
            if run.verdict is not None:
                continue
            stopped += 1
            resumed = plumanchor.resume(run.reached, 7, run.settled, run.expanded, format)
            self.assertEqual(str(resumed), str(plumanchor.solve(sheet, format)))
            lead = 10**9
            later = plumanchor.resume(run.reached, 7 + lead, run.settled + lead, run.expanded, format)
            self.assertEqual(later.settled, resumed.settled + lead)
        self.assertGreater(stopped, 5)

    def test_clauses(self) -> None:
        text = "c equal\np cnf 2 2\na 1 0\ne 2 0\n1 -2 0\n-1 2 0\n"
        for format in Format:
            sheet = plumanchor.from_qdimacs(text, format)
            self.assertEqual(sheet, plumanchor.from_qdimacs(text.encode(), format))
            self.assertIs(self.truth(sheet, format), True)
            # The universal literal of each clause stands before its existential one.
            self.assertEqual(plumanchor.reduce(plumanchor.tidy(sheet, format), format), plumanchor.tidy(sheet, format))
            with self.assertRaises(Refused) as raised:
                plumanchor.from_qdimacs("p cnf 2 3\n1 0\n", format)
            self.assertIs(raised.exception.reason, Reason.BEYOND_HEADER)


class Refusals(unittest.TestCase):
    """What is refused, and what is no call at all."""

    SHEET = plumanchor.from_qdimacs("p cnf 1 1\ne 1 0\n1 0\n")

    def test_any_bytes_are_taken(self) -> None:
        rng = random.Random(1)
        for _ in range(300):
            data = rng.randbytes(rng.randint(0, 40))
            for format in Format:
                with self.assertRaises(Refused) as raised:
                    plumanchor.check(data, format)
                for call in (plumanchor.tidy, plumanchor.solve, plumanchor.trial, plumanchor.guards, plumanchor.sort):
                    with self.assertRaises(Refused) as other:
                        call(data, format)
                    self.assertEqual(str(raised.exception), str(other.exception))

    def test_words(self) -> None:
        with self.assertRaises(Refused) as raised:
            plumanchor.tidy(self.SHEET, room=3)
        self.assertIs(raised.exception.reason, Reason.NO_ROOM)
        self.assertEqual(str(raised.exception), f"refused 13: {Reason.NO_ROOM.text}")
        self.assertEqual(str(Refused(9, 4)), "refused 9: the sheet is not tidy (row 4, counted from 0)")
        self.assertIsNone(Refused(99, 0).reason)

    def test_numbers_are_not_cut(self) -> None:
        for x in (-1, 2**64, 2**64 + 1):
            for call in (plumanchor.expand, plumanchor.settle, plumanchor.quote, plumanchor.outer, plumanchor.part):
                self.assertRaises(ValueError, call, self.SHEET, x)
            self.assertRaises(ValueError, plumanchor.steps, self.SHEET, [(Operation.SETTLE, x)])
        with self.assertRaises(Refused) as raised:
            plumanchor.settle(plumanchor.tidy(self.SHEET), 2**64 - 1)
        self.assertIs(raised.exception.reason, Reason.NOT_IN_PREFIX)

    def test_other_types(self) -> None:
        for data in (5, None, "text", [1, 2]):
            self.assertRaises(TypeError, plumanchor.check, data)
        self.assertRaises(TypeError, plumanchor.quote, self.SHEET, "1")
        self.assertRaises(ValueError, plumanchor.force, self.SHEET, [256])
        for words in ([-1], [2**32]):
            self.assertRaises(ValueError, plumanchor.certify, self.SHEET, True, words, [])
            self.assertRaises(ValueError, plumanchor.certify, self.SHEET, True, [], words)
        self.assertRaises(TypeError, plumanchor.certify, self.SHEET, True, ["0"], [])
        self.assertRaises(ValueError, plumanchor.claim, self.SHEET, 3, self.SHEET)
        with self.assertRaises(Refused) as raised:
            plumanchor.force(self.SHEET, [2])
        self.assertIs(raised.exception.reason, Reason.BAD_VALUE)

    def test_outcomes(self) -> None:
        self.assertIs(plumanchor.force(self.SHEET, []).outcome, Outcome.ONE)


if __name__ == "__main__":
    unittest.main()
