"""vanplan plans delivery rounds for vans, and validates plans made by others, by a proved library.

A round is a task sheet, as bytes or as a `Sheet`, whose cheapest plan is a `Plan`:

>>> import vanplan
>>> sheet = vanplan.Sheet(
...     end_load=10,
...     tasks=[5, -3],
...     doors=[vanplan.Door(task=0, arrive=1, leave=1, work=4), vanplan.Door(task=1, arrive=2, leave=2, work=6)],
...     starts=[0],
...     end_costs=[0, 20, 30],
...     distances=[[0, 2, 3], [2, 0, 4], [3, 4, 0]],
... )
>>> plan = vanplan.plan(sheet)
>>> plan
Plan(start=0, doors=[0, 1], cost=92)
>>> vanplan.validate(sheet, plan)
92

What is refused raises `Refused`. `vanplan.loading` reads a round from a file, `vanplan.text` reads and writes rounds as
text, `vanplan.explain` tells why a plan costs what it costs, and `vanplan.fleet` plans many rounds at once.
"""

from . import explain, fleet, loading, text
from .plans import Plan, Planner, Price, plan, price, validate
from .refusals import InternalError, Refused
from .sheets import Counts, Door, Pair, Rule, Sheet, read

__version__ = "0.4.0"

__all__ = [
    "Counts",
    "Door",
    "InternalError",
    "Pair",
    "Plan",
    "Planner",
    "Price",
    "Refused",
    "Rule",
    "Sheet",
    "explain",
    "fleet",
    "loading",
    "plan",
    "price",
    "read",
    "text",
    "validate",
]
