"""A model: the horizon, the lead, timelines and kinds of activity, as docs/MODEL.md explains them."""
from dataclasses import dataclass, field
from typing import Dict, List, Optional, Tuple

from .expressions import bounds
from .network import earliest_starts


@dataclass
class Capacity:
    name: str
    number: int           # timelines of all sorts are counted together, from 0, in the order of the text
    most: int
    sort = 'capacity'


@dataclass
class Level:
    name: str
    number: int
    least: int
    most: int
    start: int
    sort = 'level'


@dataclass
class States:
    name: str
    number: int
    states: List[str]
    start: str
    any_step: bool
    steps: List[Tuple[str, str]]
    sort = 'state'

    def allows(self, before, after):
        return self.any_step or before == after or (before, after) in self.steps


@dataclass
class Param:
    name: str
    low: int
    high: int
    default: Optional[int] = None
    formula: object = None        # the expression behind `=`, None where there is none


@dataclass
class Reservation:
    verb: str                     # use, raise, lower, set or must
    timeline: str
    amount: object = None         # the expression of use, raise and lower
    state: Optional[str] = None   # the state of set and must
    point: str = 'start'          # when raise, lower and set count


@dataclass
class Link:
    mine: str
    kind: str
    theirs: str
    low: int
    high: int


@dataclass
class Slot:
    name: str
    kind: str
    bindings: Dict[str, object]


@dataclass
class Order:
    first: str                    # a slot's name, or `parent`
    first_point: str
    second: str
    second_point: str
    low: int
    high: int


@dataclass
class Alternative:
    slots: List[Slot] = field(default_factory=list)
    orders: List[Order] = field(default_factory=list)


@dataclass
class Kind:
    name: str
    number: int
    params: List[Param] = field(default_factory=list)
    duration: object = None
    reservations: List[Reservation] = field(default_factory=list)
    links: List[Link] = field(default_factory=list)
    alternatives: List[Alternative] = field(default_factory=list)

    def param(self, name):
        return next((param for param in self.params if param.name == name), None)

    def without_value(self):
        """The parameters that have no value until a goal or a repair sets one."""
        return [param.name for param in self.params if param.formula is None and param.default is None]

    def ranges(self):
        return {param.name: (param.low, param.high) for param in self.params}

    def durations(self, horizon):
        """The bounds of the duration, cut to what a duration may be."""
        low, high = bounds(self.duration, self.ranges())
        return max(1, low), min(horizon, high)


@dataclass
class Model:
    horizon: int
    lead: int
    title: str = ''
    timelines: List[object] = field(default_factory=list)
    kinds: List[Kind] = field(default_factory=list)
    _offsets: Dict[Tuple[str, int], List[int]] = field(default_factory=dict)

    def __post_init__(self):
        self.index()

    def index(self):
        self.kind_named = {kind.name: kind for kind in self.kinds}
        self.timeline_named = {timeline.name: timeline for timeline in self.timelines}

    def offsets(self, kind, number):
        """How long after their parent's start the slots of an alternative start when it is chosen."""
        key = (kind.name, number)
        if key not in self._offsets:
            self._offsets[key] = earliest_starts(self, kind, kind.alternatives[number])
        return self._offsets[key]
