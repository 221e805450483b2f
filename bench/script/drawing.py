"""Draws random queries: trees of comparisons, each tree's text in several spellings, and the same condition in SQL."""
from __future__ import annotations

from dataclasses import dataclass
from random import Random
from typing import Callable, List, Tuple, Union

Value = Union[int, str]
NEGATED = {"==": "!=", "!=": "==", "<": ">=", ">=": "<", ">": "<=", "<=": ">"}
SIGNS = ("&&", "&&", "||")
"""Two of three joints are `&&`."""
NOT_SHARE = 0.12
"""How many of the trees and of their sides are below a `!`."""


@dataclass(frozen=True)
class Comparison:
    name: str
    operator: str
    value: Value

    def negated(self) -> Comparison:
        return Comparison(self.name, NEGATED[self.operator], self.value)


@dataclass(frozen=True)
class Not:
    inner: Tree


@dataclass(frozen=True)
class Joined:
    sign: str
    sides: Tuple[Tree, ...]


Tree = Union[Comparison, Not, Joined]


def draw_tree(chance: Random, parts: int, draw_part: Callable[[Random], Tree]) -> Tree:
    """Draws a tree that joins this many parts."""
    if parts == 1:
        tree = draw_part(chance)
    else:
        left = chance.randrange(1, parts)
        sides = draw_tree(chance, left, draw_part), draw_tree(chance, parts - left, draw_part)
        tree = Joined(chance.choice(SIGNS), sides)
    return Not(tree) if chance.random() < NOT_SHARE else tree


def comparisons_in(tree: Tree) -> List[Comparison]:
    if isinstance(tree, Comparison):
        return [tree]
    sides = (tree.inner,) if isinstance(tree, Not) else tree.sides
    return [it for side in sides for it in comparisons_in(side)]


def without_not(tree: Tree, is_negated: bool = False) -> Tree:
    """Returns the tree with each `!` pushed down to the comparisons, as the language does."""
    if isinstance(tree, Comparison):
        return tree.negated() if is_negated else tree
    if isinstance(tree, Not):
        return without_not(tree.inner, not is_negated)
    sign = {"&&": "||", "||": "&&"}[tree.sign] if is_negated else tree.sign
    return Joined(sign, tuple(without_not(side, is_negated) for side in tree.sides))


def is_covered(tree: Tree, indexed: Callable[[str], bool]) -> bool:
    """Returns whether indices cover the tree: either side of an `&&`, both of an `||`."""
    def covers(tree: Tree) -> bool:
        if not isinstance(tree, Joined):
            return isinstance(tree, Comparison) and indexed(tree.name)
        sides = map(covers, tree.sides)
        return any(sides) if tree.sign == "&&" else all(sides)

    return covers(without_not(tree))


def conjunctions(tree: Tree) -> List[List[Comparison]]:
    """Returns lists of comparisons. The tree is true exactly if all comparisons of one list are."""
    def lists(tree: Tree) -> List[List[Comparison]]:
        if not isinstance(tree, Joined):
            return [[tree]] if isinstance(tree, Comparison) else lists(without_not(tree))
        found = lists(tree.sides[0])
        for side in tree.sides[1:]:
            found = [a + b for a in found for b in lists(side)] if tree.sign == "&&" else found + lists(side)
        return found

    return lists(without_not(tree))


def query_text(tree: Tree, chance: Random) -> str:
    """Returns the query's text, here and there with parentheses that it doesn't need."""
    if isinstance(tree, Comparison):
        value = f'"{tree.value}"' if isinstance(tree.value, str) else tree.value
        text = f"{tree.name}{tree.operator}{value}"
    elif isinstance(tree, Not):
        text = f"!({query_text(tree.inner, chance)})"
    else:
        texts = [(side, query_text(side, chance)) for side in tree.sides]
        text = f" {tree.sign} ".join(_side(tree, side, text, chance) for side, text in texts)
    return f"({text})" if chance.random() < 0.1 else text


def _side(tree: Joined, side: Tree, text: str, chance: Random) -> str:
    """Returns a side's text in parentheses if it needs them, and sometimes if it doesn't."""
    if not isinstance(side, Joined):
        return text
    is_tighter = tree.sign == "||" and side.sign == "&&"
    return text if is_tighter and chance.random() < 0.5 else f"({text})"


def sql_text(tree: Tree, sql_of: Callable[[Comparison], str]) -> str:
    """Returns the condition in SQL. `sql_of` returns that of a comparison, which is NULL for a node without the attribute."""
    if isinstance(tree, Comparison):
        return sql_of(tree)
    if isinstance(tree, Not):
        return f"NOT ({sql_text(tree.inner, sql_of)})"
    word = {"&&": " AND ", "||": " OR "}[tree.sign]
    return f"({word.join(sql_text(side, sql_of) for side in tree.sides)})"


def respelled(tree: Tree, chance: Random) -> Tree:
    """Returns the same condition with its sides in another order and other parentheses."""
    def regroup(tree: Tree) -> Tree:
        if isinstance(tree, Comparison):
            return tree
        if isinstance(tree, Not):
            return Not(regroup(tree.inner))
        sides = [regroup(side) for side in tree.sides]
        chance.shuffle(sides)
        while len(sides) > 2 and chance.random() < 0.75:
            place = chance.randrange(len(sides) - 1)
            sides[place:place + 2] = [Joined(tree.sign, tuple(sides[place:place + 2]))]
        return Joined(tree.sign, tuple(sides))

    return regroup(_flat(tree))


def _flat(tree: Tree) -> Tree:
    """Returns the tree without the parentheses around sides that have its own sign."""
    if isinstance(tree, Comparison):
        return tree
    if isinstance(tree, Not):
        return Not(_flat(tree.inner))
    sides: List[Tree] = []
    for side in map(_flat, tree.sides):
        sides += side.sides if isinstance(side, Joined) and side.sign == tree.sign else [side]
    return Joined(tree.sign, tuple(sides))


def spellings(tree: Tree, most: int, chance: Random) -> List[str]:
    """Returns the texts of up to this many spellings that differ in more than parentheses that the tree doesn't need. The first one
    is as the tree was drawn."""
    trees = [tree]
    for _ in range(8 * most):
        other = respelled(tree, chance)
        if len(trees) < most and other not in trees:
            trees.append(other)
    return [query_text(it, chance) for it in trees]
