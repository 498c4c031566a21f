"""Wrong readers: reading.py with one small change, made by rule: of a comparison, a condition or an operation. Their
faults are those of real readers: bounds off by one, a check that is missing or comes too late, sums of the other
sign."""

import ast
import copy
from collections.abc import Iterator
from types import ModuleType
from typing import NamedTuple

import reading

OTHER: dict[type[ast.AST], type[ast.AST]] = {
    **{ast.Lt: ast.LtE, ast.LtE: ast.Lt, ast.Gt: ast.GtE, ast.GtE: ast.Gt, ast.Eq: ast.NotEq, ast.NotEq: ast.Eq},
    **{ast.In: ast.NotIn, ast.NotIn: ast.In, ast.Add: ast.Sub, ast.Sub: ast.Add, ast.And: ast.Or, ast.Or: ast.And},
}


class Mutant(NamedTuple):
    """A wrong reader: the function with the change, what was changed, and the source."""

    function: str
    what: str
    source: str


def changes(node: ast.AST) -> Iterator[tuple[str, object]]:
    """Yields the fields of a node that a change gives another value, with that."""
    if isinstance(node, ast.Compare) and type(node.ops[0]) in OTHER:
        yield "ops", [OTHER[type(node.ops[0])](), *node.ops[1:]]
    if isinstance(node, (ast.BinOp, ast.BoolOp)) and type(node.op) in OTHER:
        yield "op", OTHER[type(node.op)]()
    if isinstance(node, ast.BoolOp):
        yield from (("values", [it for it in node.values if it is not out]) for out in node.values if node.values[1:])
    if isinstance(node, (ast.If, ast.IfExp)):
        yield from (("test", ast.Constant(it)) for it in (True, False))


def mutants() -> Iterator[Mutant]:
    """Yields wrong readers, by the functions of reading.py."""
    tree = ast.parse(open(reading.__file__, encoding="utf-8").read())
    for place, function in enumerate(tree.body):
        if not isinstance(function, ast.FunctionDef):
            continue
        # The innermost statement comes last.
        statements = {it: one for one in ast.walk(function) if isinstance(one, ast.stmt) for it in ast.walk(one)}
        for number, node in enumerate(ast.walk(function)):
            for field, value in changes(node):
                wrong = copy.deepcopy(tree)
                changed = [*ast.walk(wrong.body[place])][number]
                setattr(changed, field, value)
                what, line = (ast.unparse(it).splitlines()[0] for it in (node, statements[node]))
                yield Mutant(function.name, f"{field} of {what}: {line}", ast.unparse(ast.fix_missing_locations(wrong)))


def reader(source: str) -> ModuleType:
    """Returns the module of a source."""
    made = ModuleType("reading")
    exec(compile(source, reading.__file__, "exec"), made.__dict__)
    return made
