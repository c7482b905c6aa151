"""Print the benchmark's stack: python3 bench/stack.py > samples/stack64.txt

A container yard seen from above, 64 by 64 cells of about 30 cm, heights in centimetres over the ground, m = k = 6.
The same text in every run.
"""
from __future__ import annotations
import random

SIDE = 64
WIDE = 8  # cells across a box
LONG = (20, 40)  # cells along a box of either length
TALL = (259, 259, 259, 290)  # centimetres; one box in four is a tall one
PILED = (0, 1, 1, 2, 2, 3, 3, 4, 4, 5)  # boxes in a pile, each entry as likely
ROWS_FROM, BOXES_FROM = -3, -12  # the first row and the first box of a row are cut off by the edge

Yard = list[list[int]]  # rows from the top, each from the left

def place(dice: random.Random, yard: Yard, top: int, left: int, long: int) -> int:
    """Put a pile of boxes on the ground and say how many. The ribs of its top run across, two cells high, two low."""
    boxes, ribs, shift = dice.choice(PILED), dice.randint(1, 4), dice.randrange(4)
    height = sum(dice.choice(TALL) for _ in range(boxes))
    for row in range(max(top, 0), min(top + WIDE, SIDE)):
        for column in range(max(left, 0), min(left + long, SIDE)):
            yard[row][column] = height - (ribs if boxes > 0 and (column + shift) % 4 < 2 else 0)
    return boxes

def raise_to(yard: Yard, row: int, column: int, height: int) -> None:
    """A thin thing at a cell hides what is lower."""
    if 0 <= row < SIDE and 0 <= column < SIDE:
        yard[row][column] = max(yard[row][column], height)

def lash(dice: random.Random, yard: Yard, top: int, column: int) -> None:
    """A lashing rod in the gap at a box's end, from the ground on one side up to the second box on the other."""
    rising = dice.randrange(2) == 0
    for step in range(WIDE):
        up = step if rising else WIDE - 1 - step
        raise_to(yard, top + step, column, 30 + up * 65)

def yard_of(dice: random.Random) -> Yard:
    """The yard without noise: rows of boxes with gaps of one cell, rods in some gaps, handrails along some rows."""
    yard: Yard = [[0] * SIDE for _ in range(SIDE)]
    for number, top in enumerate(range(ROWS_FROM, SIDE, WIDE + 1)):
        left = BOXES_FROM - 5 * dice.randrange(4)
        while left < SIDE:
            long = dice.choice(LONG)
            boxes = place(dice, yard, top, left, long)
            if boxes >= 2 and dice.randrange(2) == 0:
                lash(dice, yard, top, left + long)
            left += long + 1
        if number % 3 == 1:  # a handrail in the gap below the row, with a post every five cells
            start = dice.randrange(SIDE // 2)
            for column in range(start, start + 28):
                raise_to(yard, top + WIDE, column, 112 if (column - start) % 5 == 0 else 108)
    return yard

def measure(dice: random.Random, row: int, column: int, height: int) -> str:
    """A cell's word: noise of up to 2 cm; one echo in a hundred is lost, and every other one on a wet roof."""
    wet = 41 <= row <= 43 and 18 <= column <= 22
    if dice.randrange(100) == 0 or (wet and dice.randrange(2) == 0):
        return "."
    return str(height + dice.randint(-2, 2))

def main() -> None:
    """The command."""
    dice = random.Random(3)
    yard = yard_of(dice)
    print("6 6")
    for row, heights in enumerate(yard):
        print(" ".join(f"{measure(dice, row, column, height):>4}" for column, height in enumerate(heights)))

if __name__ == "__main__":
    main()
