"""The values of activities: parameters, duration, amounts, and where they end."""
from dataclasses import dataclass
from typing import Dict, List, Optional

from .expressions import names, value

GREATEST_AMOUNT = 10 ** 9
DURATION = 16            # how a conflict `bad-value` names the duration; parameters are below it
FIRST_AMOUNT = 17        # and how it names the amount of reservation 0


@dataclass
class Evaluation:
    values: Dict[str, Optional[int]]      # of all parameters, in the order of the model
    duration: Optional[int]
    amounts: List[Optional[int]]          # of all reservations; None also where one has no amount
    unset: List[int]                      # free parameters without a value, by number
    bad: List[int]                        # what has a value out of range, numbered as `bad-value` numbers it
    firm: bool

    def text(self):
        return ' '.join('%s=%s' % (name, '?' if number is None else number) for name, number in self.values.items())


def missing(expression, values):
    """Whether a parameter that the expression names has no value."""
    return any(values.get(name) is None for name in names(expression))


def evaluate(model, activity, parent_values=None):
    """All that follows from an activity's values; `parent_values` are those of the activity that contains it."""
    kind = activity.kind
    bound = activity.slot_of_parent().bindings if activity.parent is not None else {}
    values = dict.fromkeys(param.name for param in kind.params)
    for param in kind.params:
        if param.name in bound:
            values[param.name] = value(bound[param.name], parent_values)
        elif param.formula is None:
            values[param.name] = activity.chosen.get(param.name, param.default)
    work_out_dependents(kind, bound, values)
    duration = value(kind.duration, values)
    amounts = [None if each.amount is None else value(each.amount, values) for each in kind.reservations]
    unset = [number for number, param in enumerate(kind.params)
             if param.formula is None and param.name not in bound and values[param.name] is None]
    wrong = list(out_of_range(model, kind, bound, parent_values, values, duration, amounts))
    firm = not wrong and duration is not None and None not in values.values() and all(
        amount is not None for amount, each in zip(amounts, kind.reservations) if each.amount is not None)
    return Evaluation(values, duration, amounts, unset, wrong, firm)


def work_out_dependents(kind, bound, values):
    """Gives each parameter declared with `=` its value; they may name each other in any order."""
    waiting = [param for param in kind.params if param.formula is not None and param.name not in bound]
    while waiting:
        left = []
        for param in waiting:
            if missing(param.formula, values):
                left.append(param)
            else:
                values[param.name] = value(param.formula, values)
        if len(left) == len(waiting):
            return
        waiting = left


def out_of_range(model, kind, bound, parent_values, values, duration, amounts):
    """What is out of range, or has no value though all that it names have one."""
    for number, param in enumerate(kind.params):
        if param.name in bound:
            origin, over = bound[param.name], parent_values
        elif param.formula is not None:
            origin, over = param.formula, values
        else:
            continue
        if is_wrong(values[param.name], param.low, param.high, origin, over):
            yield number
    if is_wrong(duration, 1, model.horizon, kind.duration, values):
        yield DURATION
    for number, each in enumerate(kind.reservations):
        if each.amount is not None and is_wrong(amounts[number], 0, GREATEST_AMOUNT, each.amount, values):
            yield FIRST_AMOUNT + number


def is_wrong(number, low, high, origin, over):
    if number is None:
        return not missing(origin, over)
    return not low <= number <= high


def evaluate_all(world):
    """The evaluations of all activities, by id."""
    found = {}

    def of(activity):
        if activity.id not in found:
            parent_values = of(activity.parent).values if activity.parent is not None else None
            found[activity.id] = evaluate(world.model, activity, parent_values)
        return found[activity.id]

    for activity in world.activities.values():
        of(activity)
    return found
