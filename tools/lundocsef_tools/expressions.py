"""Expressions of a model: a number, a parameter's name, or an operation on two expressions."""
from dataclasses import dataclass

FARTHEST = 10 ** 18       # a part farther than this from 0 has no value


@dataclass(frozen=True)
class Operation:
    sign: str             # one of + - * min max
    left: object
    right: object


def compute(sign, left, right):
    if sign == '+':
        return left + right
    if sign == '-':
        return left - right
    if sign == '*':
        return left * right
    return min(left, right) if sign == 'min' else max(left, right)


def value(expression, values):
    """The value over a dictionary of parameters' values, None where it has none."""
    if isinstance(expression, int):
        return expression
    if isinstance(expression, str):
        return values.get(expression)
    left, right = value(expression.left, values), value(expression.right, values)
    if left is None or right is None:
        return None
    result = compute(expression.sign, left, right)
    return result if -FARTHEST <= result <= FARTHEST else None


def names(expression):
    """The parameters that an expression names."""
    if isinstance(expression, int):
        return set()
    if isinstance(expression, str):
        return {expression}
    return names(expression.left) | names(expression.right)


def bounds(expression, ranges):
    """The least and greatest value, worked out part by part, each parameter over its range (low, high) by itself."""
    if isinstance(expression, int):
        return expression, expression
    if isinstance(expression, str):
        return ranges[expression]
    left, right = bounds(expression.left, ranges), bounds(expression.right, ranges)
    corners = [compute(expression.sign, a, b) for a in left for b in right]
    return min(corners), max(corners)


def text(expression):
    """The expression as one would write it, with brackets around each part."""
    if not isinstance(expression, Operation):
        return str(expression)
    left, right = text(expression.left), text(expression.right)
    if expression.sign in ('min', 'max'):
        return '%s(%s, %s)' % (expression.sign, left, right)
    return '(%s %s %s)' % (left, expression.sign, right)
