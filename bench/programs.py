"""Linear programs for bench/simplex, and the chain of pivots over plain fractions.

A program asks for the least cost `base + c x` among the points `x >= 0` with `A x <= b`.
"""
import heapq
import random
from dataclasses import dataclass, field
from fractions import Fraction

EPSILON = Fraction(1, 1000)
HORIZON = Fraction(1_000_000)


@dataclass
class Program:
    name: str
    variables: int
    rows: list = field(default_factory=list)  # pairs of the entries, by variable, and the bound
    cost: dict = field(default_factory=dict)

    def add(self, entries, bound):
        self.rows.append(({v: Fraction(c) for v, c in entries.items() if c != 0}, Fraction(bound)))

    def entries(self):
        return sum(len(entries) for entries, _ in self.rows)


# ---- the orderings of the made tasks: each truck is loaded twice, drives, and is unloaded twice

# The steps of one truck: load a, load b, their ends, drive, its end, unload a, unload b, their ends. Each pair of
# these steps is linked, since both are of one action or one reads what the other writes.
LINKS = [(0, 2), (1, 3), (0, 4), (1, 4), (2, 4), (3, 4), (4, 5), (2, 6), (5, 6), (3, 7), (5, 7), (5, 8), (6, 8), (5, 9), (7, 9)]
STARTS = {2: 0, 3: 1, 5: 4, 8: 6, 9: 7}
FUEL, SPENT = 100, 2


def distance(truck):
    return 10 + 13 * truck % 17


def made_task(trucks):
    """The times of the steps of the made ordering for so many trucks, and of its last step, which is the cost."""
    steps = 10 * trucks
    program = Program(f"made task {trucks}", steps + 1, cost={steps: Fraction(1)})
    for step in range(steps):
        first, place = step - step % 10, step % 10
        for before, after in LINKS:
            if after == place:
                program.add({first + before: 1, step: -1}, -EPSILON)
        program.add({step: 1}, HORIZON)
        program.add({step: 1, steps: -1}, 0)
        if place in STARTS:
            start, duration = first + STARTS[place], distance(step // 10 + 1) if place == 5 else 1
            program.add({step: -1, start: 1}, -duration)
            program.add({step: 1, start: -1}, duration)
        if place == 4:
            program.add({}, FUEL)
        if place == 5:
            program.add({step: SPENT, first + 4: -SPENT}, FUEL)
    return program


def tank():
    """A tank that is filled at rate 3 up to level 1 at least and 10 at most: the times of the start, the end and the
    last step."""
    program = Program("tank", 3, cost={2: Fraction(1)})
    program.add({0: 1}, HORIZON)
    program.add({0: 1, 2: -1}, 0)
    program.add({}, 10)
    program.add({0: 1, 1: -1}, -EPSILON)
    program.add({1: 1}, HORIZON)
    program.add({1: 1, 2: -1}, 0)
    program.add({1: 1, 0: -1}, 10)
    program.add({1: 3, 0: -3}, 10)
    program.add({1: -3, 0: 3}, -1)
    return program


def watch():
    """Four steps one after another, of which the first starts an action of duration 1 that the last one ends. What it
    watches is 1, 3 and 1 above its bound."""
    program = Program("watch", 5, cost={4: Fraction(1)})
    above = [1, 1, 3, 1]
    for step in range(4):
        for before in range(step):
            program.add({before: 1, step: -1}, -EPSILON)
        program.add({step: 1}, HORIZON)
        program.add({step: 1, 4: -1}, 0)
        if step == 3:
            program.add({3: -1, 0: 1}, -1)
            program.add({3: 1, 0: -1}, 1)
        if step > 0:
            program.add({}, above[step])
        if step < 3:
            program.add({}, [1, 3, 1][step])
    return program


def prefix(starts, seed):
    """The times of so many starts, as many timed steps between them and the ends to come. Each two of them are linked,
    and each action has eight comparisons that hold throughout, of fluents whose rates each start changes."""
    draw = random.Random(seed)
    steps, level = 2 * starts, 2000
    rates = [[draw.randint(-3, 3) for _ in range(8)] for _ in range(starts)]
    program = Program(f"prefix of {starts} starts", steps + starts + 1)
    last = steps + starts
    for step in range(steps):
        start = step // 2
        if step % 2 == 1:
            for before in range(0, step, 2):
                program.add({before: 1, step: -1}, -EPSILON)
            program.add({step: 1}, 10 * (start + 1))
            program.add({step: -1}, -10 * (start + 1))
            continue
        for before in range(step):
            program.add({before: 1, step: -1}, -EPSILON if before % 2 == 1 else 0)
        program.add({step: 1}, HORIZON)
        program.add({step: 1, last: -1}, 0)
        for running in range(start + 1):
            for watched in range(8):
                # The level at this step is as much as before it, so a row is made twice, but for a start's own.
                spent = {2 * k: rates[k][watched] for k in range(start)}
                spent[step] = -sum(spent.values())
                for _ in range(1 if running == start else 2):
                    program.add(spent, level)
    for start in range(starts):
        end = steps + start
        for before in range(steps):
            program.add({before: 1, end: -1}, -EPSILON)
        program.add({end: 1}, HORIZON)
        program.add({end: -1, 2 * start: 1}, -5)
        program.add({end: 1, 2 * start: -1}, HORIZON)
    return program


def filled(variables, rows, percent, seed):
    """A program of small whole numbers that has a solution, with so many of a hundred entries filled."""
    draw = random.Random(seed)
    program = Program(f"{variables} variables, {rows} rows, {percent} % filled", variables)
    for row in range(rows):
        covering = row % 4 == 0
        entries = {}
        for variable in range(variables):
            if draw.randrange(100) < percent:
                size = draw.randint(1, 9)
                entries[variable] = -size if covering or draw.random() < 0.5 else size
        program.add(entries, -draw.randrange(50) if covering and entries else 50 + 20 * draw.randrange(50))
    program.cost = {variable: Fraction(draw.randint(1, 9)) for variable in range(variables)}
    return program


# ---- the chain

@dataclass
class Chain:
    outcome: str
    pivots: int
    cost: Fraction
    changed: int  # numbers that a pivot changed
    touched: int  # numbers that a pivot over rows without their zeros reckoned
    dense: int  # numbers that one over whole rows reckons
    widest: int  # the most bits of a numerator or denominator
    filled: int  # the most numbers of a dictionary that weren't 0


def bits(number):
    return max(number.numerator.bit_length(), number.denominator.bit_length())


class Dictionary:
    """Each basic variable and the cost as numbers of the nonbasic ones, without zeros. A column is the place of a
    nonbasic variable, the last one is the constant's; row -1 is the cost."""

    def __init__(self, program):
        self.last = program.variables
        self.nonbasic = list(range(self.last))
        self.basic = [self.last + row for row in range(len(program.rows))]
        self.rows = [{v: -c for v, c in entries.items()} for entries, _ in program.rows]
        for row, (_, bound) in zip(self.rows, program.rows):
            if bound != 0:
                row[self.last] = bound
        self.rows.append(dict(program.cost))
        self.columns = [set() for _ in range(self.last + 1)]
        for number, row in enumerate(self.rows):
            for column in row:
                self.columns[column].add(number)

    def leaving(self):
        cost = len(self.basic)
        low = (i for i in self.columns[self.last] if i != cost and self.rows[i][self.last] < 0)
        return min(low, key=lambda i: self.basic[i], default=None)

    def entering(self, row, sign):
        found = (j for j, c in self.rows[row].items() if j != self.last and c * sign > 0)
        return min(found, key=lambda j: self.nonbasic[j], default=None)

    def tightest(self, column):
        def ratio(i):
            return (self.rows[i].get(self.last, 0) / -self.rows[i][column], self.basic[i])
        cost = len(self.basic)
        return min((i for i in self.columns[column] if i != cost and self.rows[i][column] < 0), key=ratio)

    def turn(self):
        """The next pivot, or how the chain ends."""
        row = self.leaving()
        if row is not None:
            column = self.entering(row, 1)
            return "infeasible" if column is None else (row, column)
        column = self.entering(len(self.basic), -1)
        return "optimal" if column is None else (self.tightest(column), column)

    def pivot(self, row, column):
        """Makes the pivot: how many numbers changed, and how many a pivot without zeros reckons."""
        old, by = self.rows[row], 1 / self.rows[row][column]
        solution = {j: by if j == column else -by * c for j, c in old.items()}
        changed, touched = sum(c != old[j] for j, c in solution.items()), len(solution)
        self.rows[row] = solution
        for i in self.columns[column] - {row}:
            more, less = self.replace(i, column, solution)
            changed, touched = changed + more, touched + less
        self.basic[row], self.nonbasic[column] = self.nonbasic[column], self.basic[row]
        return changed, touched

    def replace(self, i, column, solution):
        row = self.rows[i]
        touched = len(row.keys() | solution.keys())
        factor, changed = row[column], 0
        for j, c in solution.items():
            total = (0 if j == column else row.get(j, 0)) + factor * c
            changed += total != row.get(j, 0)
            if total != 0:
                row[j] = total
                self.columns[j].add(i)
            else:
                row.pop(j, None)
                self.columns[j].discard(i)
        return changed, touched


def chain(program, most=100_000):
    """Walks the chain from the first dictionary, at most so many pivots."""
    d = Dictionary(program)
    told = Chain("spent", 0, Fraction(0), 0, 0, 0, 0, 0)
    for _ in range(most):
        turn = d.turn()
        if isinstance(turn, str):
            told.outcome = turn
            break
        changed, touched = d.pivot(*turn)
        told.pivots += 1
        told.changed += changed
        told.touched += touched
        told.dense += len(d.rows) * (d.last + 1)
        told.widest = max(told.widest, max(bits(c) for i in d.columns[turn[1]] for c in d.rows[i].values()))
        told.filled = max(told.filled, sum(map(len, d.rows)))
    told.cost = d.rows[-1].get(d.last, Fraction(0))
    return told
