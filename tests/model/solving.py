"""Steps of solving for the independent model: what they reach, how far a position is from it, and every solution.

A step is reached where sets of sticker places are kept. The images of such a set under all cubes are numbered as they are
found; a position is such numbers, and its distance is found level by level from the goal.
"""
import fcntl
from collections.abc import Callable, Iterator, Sequence
from functools import lru_cache
from hashlib import sha256
from pathlib import Path as File

from cube import EFFECTS, PLACES, Effect, Move, Vector
from notation import TURNS, allowed

AXIS = {"rl": 0, "ud": 1, "fb": 2}
FARTHEST = 20
BEYOND = 21
# of the texts of these the distances of domino reductions are made
SOURCES = ("cube.py", "notation.py", "solving.py")


class TooMuch(Exception):
    """A search that takes too long for a model in Python, or goes deeper than its distances are filled."""


class Bounds:
    """What a search may take: positions looked at in one deepening, and the depth to which dominoes' distances are filled."""

    looks: int | None = None
    depth = FARTHEST


Places = frozenset[int]
# what a turn makes of the high part of a position, and of the low one if there is one
Table = tuple[list[int], list[int] | None]
Mover = Callable[[int, int], int]
Position = tuple[int, ...]
Path = tuple[int, ...]
# the least length, the solutions in order, and the positions looked at
Searched = tuple[int | None, list[Path], int]


def kind_of(cell: Vector) -> int:
    """3 for a corner, 2 for an edge, 1 for a centre."""
    return sum(abs(part) for part in cell)


def twist_set(axis: int) -> Places:
    """The corner stickers on the two faces of an axis."""
    return frozenset(
        number for number, (cell, direction) in enumerate(PLACES) if kind_of(cell) == 3 and direction[axis]
    )


def slice_set(axis: int) -> Places:
    """The edges in the layer between these faces."""
    return frozenset(number for number, (cell, _) in enumerate(PLACES) if kind_of(cell) == 2 and cell[axis] == 0)


def flip_set(axis: int) -> Places:
    """One sticker of each edge, such that turns other than quarter turns on the axis keep the set."""
    other = 0 if axis == 1 else 1
    return frozenset(
        number
        for number, (cell, direction) in enumerate(PLACES)
        if kind_of(cell) == 2 and (direction[other] or (cell[other] == 0 and direction[axis]))
    )


TURNS_OF = {"all": TURNS}
for _axis, _faces in (("fb", "FB"), ("rl", "RL"), ("ud", "UD")):
    TURNS_OF[_axis] = [turn for turn in TURNS if turn[0] not in _faces or turn[1] == 2]


class Coordinate:
    """The images of a set of places under all cubes, numbered from 0 for the set itself, and the number after each turn."""

    def __init__(self, kept: Places, size: int) -> None:
        self.kept, self.number = kept, {kept: 0}
        self.after: list[list[int]] = [[] for _ in TURNS]
        queue = [kept]
        for image in queue:
            for index, turn in enumerate(TURNS):
                turned = frozenset(EFFECTS[turn][place] for place in image)
                if turned not in self.number:
                    self.number[turned] = len(queue)
                    queue.append(turned)
                self.after[index].append(self.number[turned])
        assert len(queue) == size, (len(queue), size)

    def of(self, effect: Effect) -> int:
        """The number of the image under an effect."""
        return self.number[frozenset(effect[place] for place in self.kept)]


COORDINATE_SETS = {"flip": (flip_set, 2048), "twist": (twist_set, 2187), "slice": (slice_set, 495)}
SLICES = 495
_coordinates: dict[tuple[str, str], Coordinate] = {}


def coordinate(kind: str, axis: str) -> Coordinate:
    """A coordinate by its kind and the name of its axis, made once."""
    if (kind, axis) not in _coordinates:
        places, size = COORDINATE_SETS[kind]
        _coordinates[kind, axis] = Coordinate(places(AXIS[axis]), size)
    return _coordinates[kind, axis]


def levels(size: int, tables: Sequence[Table], deepest: int) -> bytes:
    """The distance of each position from position 0, by tables of what each turn makes of its high and low part."""
    distance = bytearray([BEYOND]) * size
    distance[0] = 0
    level, depth = [0], 0
    while level and depth < deepest:
        depth += 1
        level = next_level(distance, level, depth, tables)
    return bytes(distance)


def next_level(distance: bytearray, level: list[int], depth: int, tables: Sequence[Table]) -> list[int]:
    """The positions one turn beyond a level that were not met before."""
    found = []
    for position in level:
        twist, middle = divmod(position, SLICES)
        for high, low in tables:
            turned = high[position] if low is None else high[twist] + low[middle]
            if distance[turned] == BEYOND:
                distance[turned] = depth
                found.append(turned)
    return found


@lru_cache(None)
def folder_of_distances() -> File:
    """Where distances are kept as long as nothing changes of which they are made."""
    own = File(__file__).resolve().parent
    name = sha256(b"".join((own / source).read_bytes() for source in SOURCES)).hexdigest()
    folder = own.parent.parent / "build" / "model" / name[:16]
    folder.mkdir(parents=True, exist_ok=True)
    return folder


class Orientation:
    """Edges oriented on an axis: positions are flips."""

    def __init__(self, axis: str, turns: str) -> None:
        self.turns, self.flip = [TURNS.index(turn) for turn in TURNS_OF[turns]], coordinate("flip", axis)
        self.distance = levels(2048, [(self.flip.after[index], None) for index in self.turns], FARTHEST)
        self.deepest = FARTHEST

    def position(self, effect: Effect) -> int:
        """The number of a cube's position."""
        return self.flip.of(effect)

    def mover(self) -> Mover:
        """What the step's turn with an index makes of a position."""
        tables = [self.flip.after[index] for index in self.turns]
        return lambda position, index: tables[index][position]


class Domino:
    """A domino reduction on an axis: positions are twists and slices."""

    def __init__(self, axis: str, turns: str) -> None:
        self.turns = [TURNS.index(turn) for turn in TURNS_OF[turns]]
        self.twist, self.slice = coordinate("twist", axis), coordinate("slice", axis)
        self.tables = [
            ([twist * SLICES for twist in self.twist.after[index]], self.slice.after[index]) for index in self.turns
        ]
        self.deepest = Bounds.depth
        self.distance = self.cached("domino-%s-%s-%d" % (axis, turns, self.deepest))

    def cached(self, name: str) -> bytes:
        """The distances, which are worked out once for all tests of a checkout: what needs them meanwhile waits."""
        size = 2187 * SLICES
        with open(folder_of_distances() / name, "a+b") as file:
            fcntl.flock(file, fcntl.LOCK_EX)
            file.seek(0)
            distance = file.read()
            # there are fewer if a process ended while it wrote them
            if len(distance) < size:
                distance = levels(size, self.tables, self.deepest)
                file.truncate(0)
                file.write(distance)
        return distance

    def position(self, effect: Effect) -> int:
        """The number of a cube's position."""
        return self.twist.of(effect) * SLICES + self.slice.of(effect)

    def mover(self) -> Mover:
        """What the step's turn with an index makes of a position."""
        tables = self.tables
        return lambda position, index: tables[index][0][position // SLICES] + tables[index][1][position % SLICES]


# name: the axis whose edges must be oriented at the start, the turns, and the goals, of which one is to be reached
Goal = Orientation | Domino
KindOfGoal = type[Orientation] | type[Domino]
STEPS: dict[str, tuple[str | None, str, list[tuple[KindOfGoal, str]]]] = {}
for _axis in ("fb", "rl", "ud"):
    STEPS["eo" + _axis] = (None, "all", [(Orientation, _axis)])
for _domino, _axis in (("ud", "fb"), ("rl", "fb"), ("ud", "rl"), ("fb", "rl"), ("rl", "ud"), ("fb", "ud")):
    STEPS["dr%s-eo%s" % (_domino, _axis)] = (_axis, _axis, [(Domino, _domino)])
STEPS["eo"] = (None, "all", [(Orientation, "fb"), (Orientation, "rl"), (Orientation, "ud")])
STEPS["dr-eofb"] = ("fb", "fb", [(Domino, "ud"), (Domino, "rl")])
STEPS["dr-eorl"] = ("rl", "rl", [(Domino, "ud"), (Domino, "fb")])
STEPS["dr-eoud"] = ("ud", "ud", [(Domino, "rl"), (Domino, "fb")])
ORIENTATIONS = [name for name, (start, _, _) in STEPS.items() if start is None]
DOMINOES = [name for name in STEPS if name not in ORIENTATIONS]
_goals: dict[tuple[KindOfGoal, str, str], Goal] = {}


def goal(kind: KindOfGoal, axis: str, turns: str) -> Goal:
    """One goal of a step, made once."""
    key = kind, axis, turns
    if key not in _goals:
        _goals[key] = kind(axis, turns)
    return _goals[key]


class Step:
    """A step with its goals, turns and searches. A position has a number for each goal, a path is a list of turn indices."""

    def __init__(self, name: str) -> None:
        self.name = name
        self.start, turns, goals = STEPS[name]
        self.turns = TURNS_OF[turns]
        self.goals = [goal(kind, axis, turns) for kind, axis in goals]
        self.deepest = min(each.deepest for each in self.goals)
        self.movers = [each.mover() for each in self.goals]
        self.follow: dict[int | None, list[int]] = {None: list(range(len(self.turns)))}
        for index, last in enumerate(self.turns):
            self.follow[index] = [after for after, turn in enumerate(self.turns) if allowed(last, turn)]

    def may_start(self, effect: Effect) -> bool:
        """Whether the edges are oriented as the step asks for."""
        return self.start is None or coordinate("flip", self.start).of(effect) == 0

    def position(self, effect: Effect) -> Position:
        """The position of a cube."""
        return tuple(each.position(effect) for each in self.goals)

    def look(self, position: Position) -> int:
        """The distance of a position: the least over the goals."""
        return min(each.distance[number] for each, number in zip(self.goals, position))

    def after(self, position: Position, index: int) -> Position:
        """The position after a turn."""
        return tuple(move(number, index) for move, number in zip(self.movers, position))

    def search(self, start: Position, limit: int, slack: int) -> Searched:
        """The least length or None, the solutions in order, and the positions looked at, by deepening turn by turn."""
        least: int | None = None
        found: list[Path] = []
        looks, depth, last = 0, 0, limit
        while depth <= last:
            if depth > self.deepest:
                raise TooMuch
            solutions, looked = self.deepen(start, depth)
            looks += looked
            found += solutions
            if solutions and least is None:
                least, last = depth, min(limit, depth + slack)
            depth += 1
        return least, found, looks

    def deepen(self, start: Position, depth: int) -> tuple[list[Path], int]:
        """All solutions of exactly this length, and the positions looked at."""
        found: list[Path] = []
        path: list[int] = []
        looks = 1
        if self.look(start) > depth:
            return found, looks
        if depth == 0:
            return [()], looks
        waiting: list[tuple[Position, Iterator[int]]] = [(start, iter(self.follow[None]))]
        while waiting:
            position, choices = waiting[-1]
            index = next(choices, None)
            if index is None:
                waiting.pop()
                del path[-1:]
                continue
            turned = self.after(position, index)
            looks += 1
            if Bounds.looks is not None and looks > Bounds.looks:
                raise TooMuch
            left = depth - len(path) - 1
            if self.look(turned) > left:
                continue
            if left == 0:
                found.append(tuple(path) + (index,))
                continue
            path.append(index)
            waiting.append((turned, iter(self.follow[index])))
        return found, looks


_steps: dict[str, Step] = {}
_solutions: dict[tuple[str, Position, int, int], Searched] = {}


def step(name: str) -> Step:
    """A step by its name, made once."""
    if name not in _steps:
        _steps[name] = Step(name)
    return _steps[name]


def solutions_of(name: str, position: Position, limit: int, slack: int) -> Searched:
    """What the search answers, kept for the same question again."""
    key = name, position, limit, slack
    if key not in _solutions:
        if len(_solutions) > 20000:
            _solutions.clear()
        _solutions[key] = step(name).search(position, limit, slack)
    return _solutions[key]
