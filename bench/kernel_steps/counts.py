"""What the runs have shown so far."""
import ast
import collections
from pathlib import Path

import differences

steps = collections.Counter()       # steps of the rule that occurred
loads = collections.Counter()       # loads of the kernel's code, and other accesses, that the rule doesn't have
known = collections.Counter()       # documented differences, by name
words = collections.Counter()       # flags of the owner word and of the count behind a change
sums = collections.Counter()        # kinds of a wake's sum
shortest = {}                       # of each documented difference: where it came after the fewest lines

position = [0, "", 0, 0]            # how many lines, of which lock and order, of which run, of how many tasks


class Difference(Exception):
    """The kernel's code does what the rule hasn't, or a fact doesn't hold."""


def need(condition, text, *values):
    if not condition:
        raise Difference(text % values if values else text)


def did(label):
    """A step of the rule has occurred."""
    steps[label] += 1


def differs(label):
    """The kernel's code went another way than the rule, by a documented difference."""
    known[label] += 1
    assert label in differences.SEEN, label
    if label not in shortest or shortest[label][0] > position[0]:
        shortest[label] = tuple(position)


def all_steps():
    """The steps that the rules name, by module: the words that they give to `did`."""
    found = {}
    for path in sorted(Path(__file__).parent.glob("*.py")):
        calls = (node for node in ast.walk(ast.parse(path.read_text())) if isinstance(node, ast.Call))
        found[path.stem] = {label for call in calls if getattr(call.func, "id", "") == "did" for label in labels_in(call.args[0])}
    return found


def labels_in(expression):
    """The labels that `"one" if CONDITION else "another"` may give."""
    if isinstance(expression, ast.IfExp):
        return labels_in(expression.body) | labels_in(expression.orelse)
    return {expression.value} if isinstance(expression, ast.Constant) else set()
