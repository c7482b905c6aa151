"""Make the stored input of the program `vectors`: python3 reference/make_vectors.py

Writes crates/vectors/stdin, the same in every run: stacks of many kinds, for every pair m, k.
"""
from __future__ import annotations
import random
import sys
from pathlib import Path
from typing import Callable

from codec import HIGHEST, LOWEST, Grid, Shape, undo
from vectors import BETWEEN

STORED = Path("crates", "vectors", "stdin")
ROOT = Path(__file__).resolve().parent.parent
SEED = 21
BOX = 259  # the height of a container in centimetres
RAIL = 100  # that of a handrail

Map = list[list[int | None]]  # heights, None for a cell without an echo
Family = Callable[[random.Random, int], Map]

# A grid of coefficients with k = 2 whose survey has 6 planes, with 29 bits in plane 5 and 21 in plane 4.
COUNTED_SHAPE = Shape(3, 2)
COUNTED: Grid = [
    [63, -34, 49, 10, 7, 13, -12, 7],
    [-31, 23, 14, -13, 3, 4, 6, -1],
    [15, 14, 3, -12, 5, -7, 3, 9],
    [-9, -7, -14, 8, 4, -2, 3, 2],
    [-5, 9, -1, 47, 4, 6, -2, 2],
    [3, 0, -3, 2, 3, -2, 0, 4],
    [2, -3, 6, -4, 3, 6, 3, 6],
    [5, 11, 5, 6, 0, 3, -4, 4],
]

# ---- Families of stacks: each makes a map of a side
def made(side: int, height_at: Callable[[int, int], int | None]) -> Map:
    """A map from the height at each row and column."""
    return [[height_at(row, column) for column in range(side)] for row in range(side)]

def zeros(dice: random.Random, side: int) -> Map:
    """A map of zeros."""
    return made(side, lambda row, column: 0)

def flat_above(dice: random.Random, side: int) -> Map:
    """One height above 0 everywhere."""
    height = dice.randint(1, 2000)
    return made(side, lambda row, column: height)

def flat_below(dice: random.Random, side: int) -> Map:
    """One height below 0 everywhere."""
    height = dice.randint(-2000, -1)
    return made(side, lambda row, column: height)

def flat_highest(dice: random.Random, side: int) -> Map:
    """The greatest height everywhere."""
    return made(side, lambda row, column: HIGHEST)

def flat_lowest(dice: random.Random, side: int) -> Map:
    """The least height everywhere."""
    return made(side, lambda row, column: LOWEST)

def ramp_by_row(dice: random.Random, side: int) -> Map:
    """Heights that change from row to row."""
    start, step = dice.randint(-500, 500), dice.choice((-7, -1, 1, 12))
    return made(side, lambda row, column: start + step * row)

def ramp_by_column(dice: random.Random, side: int) -> Map:
    """Heights that change from column to column."""
    start, step = dice.randint(-500, 500), dice.choice((-9, -2, 1, 5))
    return made(side, lambda row, column: start + step * column)

def ramp_by_both(dice: random.Random, side: int) -> Map:
    """Heights that change along the rows and along the columns."""
    start, down, right = dice.randint(-500, 500), dice.choice((-3, 1, 8)), dice.choice((-5, 1, 2))
    return made(side, lambda row, column: start + down * row + right * column)

def boxes(dice: random.Random, side: int) -> Map:
    """Boxes with sharp edges, one to five of them on each other, on a ground near 0."""
    heights = made(side, lambda row, column: dice.randint(-2, 2))
    for _ in range(1 + side * side // 40):
        top, left = dice.randrange(side), dice.randrange(side)
        tall, wide, height = dice.randint(3, 5), dice.randint(3, 5), BOX * dice.randint(1, 5)
        for row in range(top, min(top + tall, side)):
            heights[row][left : left + wide] = [height] * len(heights[row][left : left + wide])
    return heights

def handrails(dice: random.Random, side: int) -> Map:
    """Lines one cell wide on a flat roof, along some row and some columns."""
    roof = 2 * BOX
    rows, columns = {dice.randrange(side)}, {dice.randrange(side) for _ in range(1 + side // 16)}
    return made(side, lambda row, column: roof + RAIL if row in rows or column in columns else roof)

def random_small(dice: random.Random, side: int) -> Map:
    """Random heights near 0."""
    return made(side, lambda row, column: dice.randint(-3, 3))

def random_span(dice: random.Random, side: int) -> Map:
    """Random heights over the whole span."""
    return made(side, lambda row, column: dice.randint(LOWEST, HIGHEST))

def checkerboard(dice: random.Random, side: int) -> Map:
    """The greatest and the least height by turns."""
    first = dice.randrange(2)
    return made(side, lambda row, column: HIGHEST if (row + column) % 2 == first else LOWEST)

def spike(dice: random.Random, side: int) -> Map:
    """One cell that is not 0."""
    place = dice.randrange(side), dice.randrange(side)
    height = dice.choice((1, -1, RAIL, -RAIL, HIGHEST, LOWEST))
    return made(side, lambda row, column: height if (row, column) == place else 0)

def no_echo(dice: random.Random, side: int) -> Map:
    """Boxes with some cells without an echo, at least one of them."""
    heights = boxes(dice, side)
    for _ in range(1 + side * side // 50):
        heights[dice.randrange(side)][dice.randrange(side)] = None
    return heights

def no_echo_at_all(dice: random.Random, side: int) -> Map:
    """Cells without an echo only."""
    return made(side, lambda row, column: None)

FAMILIES: tuple[Family, ...] = (
    zeros, flat_above, flat_below, flat_highest, flat_lowest, ramp_by_row, ramp_by_column, ramp_by_both, boxes,
    handrails, random_small, random_span, checkerboard, spike, no_echo, no_echo_at_all)
# Large sides have few families for each k, to save space.
FAMILIES_OF_32: tuple[tuple[Family, ...], ...] = (
    (boxes, handrails, ramp_by_both, zeros),
    (boxes, no_echo, random_span, flat_above),
    (boxes, handrails, checkerboard, spike),
    (no_echo, random_small, ramp_by_row, flat_lowest),
    (boxes, handrails, ramp_by_column, no_echo_at_all),
    (boxes, no_echo, random_span, flat_highest),
)
FAMILIES_OF_64: tuple[tuple[Family, ...], ...] = (
    (boxes, handrails, random_span),
    (checkerboard, ramp_by_both, no_echo),
    (no_echo, zeros, flat_above),
    (boxes, spike, checkerboard),
    (handrails, random_small, ramp_by_column),
    (boxes, flat_lowest, ramp_by_row),
    (boxes, random_span, handrails),
)

# ---- The text
def families_for(m: int, k: int) -> tuple[Family, ...]:
    """The families of which a pair m, k has a stack."""
    return FAMILIES_OF_64[k] if m == 6 else FAMILIES_OF_32[k] if m == 5 else FAMILIES

def text_of(m: int, k: int, heights: Map) -> str:
    """A stack as the programs read it."""
    rows = [" ".join("." if height is None else str(height) for height in row) for row in heights]
    return "".join(line + "\n" for line in [f"{m} {k}", *rows])

def stacks() -> list[str]:
    """All stacks: two of which the rules or COUNTED say something, then those of the families."""
    dice = random.Random(SEED)
    texts = [text_of(1, 1, [[10, 7], [4, 5]]),
             text_of(COUNTED_SHAPE.m, COUNTED_SHAPE.k, undo(COUNTED_SHAPE, COUNTED))]
    for m in range(1, 7):
        for k in range(m + 1):
            texts += [text_of(m, k, family(dice, 2**m)) for family in families_for(m, k)]
    return texts

def stored_input() -> bytes:
    """What crates/vectors/stdin has to be."""
    return BETWEEN.join(text.encode() for text in stacks())

def main() -> int:
    """The command."""
    (ROOT / STORED).parent.mkdir(parents=True, exist_ok=True)
    (ROOT / STORED).write_bytes(stored_input())
    return 0

if __name__ == "__main__":
    sys.exit(main())
