r"""nissy for Python: moves and searches of the 3x3x3 cube, by the proved library libnissy.

    >>> import nissy
    >>> nissy.invert("R U' F2")
    "F2 U R'"
    >>> nissy.solve("eofb", "R U F")
    ['F', "F'"]
    >>> nissy.count("eofb", "R U F")
    Count(length=1, solutions=2, nodes=20)
    >>> nissy.facts("R U2 R").case["ud"]
    '4c2e'
    >>> print(*nissy.best("U R F", most=2), sep="\n")
    F' R (2)
    F (U) (2)
    >>> nissy.cleanup("R Q")
    Traceback (most recent call last):
    nissy.LineFault: column 3: not a move

Of many lines `count_all`, `facts_all`, `solve_all` and `best_all` return an answer each; one that has a fault has that
for an answer, and ends nothing. The first search of a step builds its tables, which stay for the next ones: some 15
million bytes for all thirteen steps. A call lets go of Python's lock, so calls of several threads run side by side. The
library is the file that NISSY_LIBRARY names, else the one that was installed or built with this package, else the
system's.
"""
from ._attempts import Attempt, AttemptCandidate, AttemptDoubt, read_attempts
from ._best import best, best_all, line_after
from ._checks import AttemptCheck, FormInText, check_attempts
from ._continuations import Continuation, Continuations, Lengths, Orientation, Reduction
from ._facts import Case, Check, Facts, Pieces, check, check_all, facts, facts_all
from ._given import Step as Step, Text as Text
from ._lines import cleanup, facelets, invert, scramble, steps, unniss, version
from ._places import start_of
from ._runs import run, scrambles
from ._searches import count, count_all, solutions, solve, solve_all
from ._sides import Sides as Sides
from ._stickers import AXES, CORNER_PLACES, EDGE_PLACES, NET, Axis as Axis, stickers_of
from ._tokens import FormPlace, Token, form_places, tokens
from ._values import Answer, Count, Cut, Fault, LineFault, Solution, Solutions, StartFault, raising
from ._written import PlainLine, TextPlace, place_of, plain_line

__all__ = [
    "AXES",
    "CORNER_PLACES",
    "EDGE_PLACES",
    "NET",
    "Answer",
    "Attempt",
    "AttemptCandidate",
    "AttemptCheck",
    "AttemptDoubt",
    "Case",
    "Check",
    "Continuation",
    "Continuations",
    "Count",
    "Cut",
    "Facts",
    "Fault",
    "FormInText",
    "FormPlace",
    "Lengths",
    "LineFault",
    "Orientation",
    "Pieces",
    "PlainLine",
    "Reduction",
    "Solution",
    "Solutions",
    "StartFault",
    "TextPlace",
    "Token",
    "best",
    "best_all",
    "check",
    "check_all",
    "check_attempts",
    "cleanup",
    "count",
    "count_all",
    "facelets",
    "facts",
    "facts_all",
    "form_places",
    "invert",
    "line_after",
    "place_of",
    "plain_line",
    "raising",
    "read_attempts",
    "run",
    "scramble",
    "scrambles",
    "solutions",
    "solve",
    "solve_all",
    "start_of",
    "steps",
    "stickers_of",
    "tokens",
    "unniss",
]

__version__ = version()
del version

# what others see of these, as in a traceback or in what was pickled, is named by the package
for _name in __all__:
    if isinstance(globals()[_name], type):
        globals()[_name].__module__ = __name__
del _name
