"""Reference for the rules that decide numbers and bits, written from docs/RULES.md alone.

The parts stand in the order of the rules. Nothing here is fast; everything is meant to be read next to them.
Every `//` is a floor division: it goes towards minus infinity for negative numbers too.
"""
from __future__ import annotations
from collections.abc import Iterable
from dataclasses import dataclass

Grid = list[list[int]]  # rows from the top, each from the left
Cell = tuple[int, int]  # row, column
Block = tuple[int, int, int]  # row and column of the top left cell, side
LOWEST, HIGHEST = -8192, 8191  # heights, in whole centimetres
EDITION = 1
MOST_BITS = 86101  # of a whole survey
REFUSALS: dict[int, str] = {
    1: "side", 2: "levels", 3: "planes", 4: "height", 5: "cell", 6: "told twice", 7: "edition", 8: "slot",
    9: "buffer", 10: "surplus", 11: "contradiction", 12: "trailer", 13: "padding",
}

class Refusal(Exception):
    """A call cannot do what it was asked."""
    def __init__(self, number: int) -> None:
        self.number, self.word = number, REFUSALS[number]
        super().__init__(f"{self.number} {self.word}")

# ---- Shape and head
@dataclass(frozen=True)
class Shape:
    """A checked pair m, k, refused with 1, then 2."""
    m: int
    k: int

    def __post_init__(self) -> None:
        if not 1 <= self.m <= 6:
            raise Refusal(1)
        if not 0 <= self.k <= self.m:
            raise Refusal(2)

    @property
    def side(self) -> int:
        """The number of rows, and of columns."""
        return 2**self.m

@dataclass(frozen=True)
class Head(Shape):
    """A shape with a plane count P, refused with 1, then 2, then 3."""
    planes: int

    def __post_init__(self) -> None:
        super().__post_init__()
        if not 0 <= self.planes <= 15:
            raise Refusal(3)

def write_head(head: Head) -> bytes:
    """The four bytes of a head."""
    return bytes([EDITION, head.m, head.k, head.planes])

def read_head(data: bytes) -> Head:
    """A head from the first four bytes: refused with 9, then 1, 2, 3, then 7."""
    if len(data) < 4:
        raise Refusal(9)
    head = Head(data[1], data[2], data[3])
    if data[0] != EDITION:
        raise Refusal(7)
    return head

# ---- Frame
class Frame:
    """An open frame: every cell is untold (None) until a height is entered."""
    def __init__(self, shape: Shape) -> None:
        self.shape = shape
        self.cells: list[list[int | None]] = [[None] * shape.side for _ in range(shape.side)]

    def enter(self, row: int, column: int, height: int) -> None:
        """Tell one cell its height: refused with 4, then 5, then 6."""
        if not LOWEST <= height <= HIGHEST:
            raise Refusal(4)
        if not (0 <= row < self.shape.side and 0 <= column < self.shape.side):
            raise Refusal(5)
        if self.cells[row][column] is not None:
            raise Refusal(6)
        self.cells[row][column] = height

    def close(self) -> Grid:
        """Use the frame up and give all heights; an untold cell stands as -8192."""
        cells = self.cells
        del self.cells  # from here on entering or closing fails as a mistake of the caller, not as a refusal
        return [[LOWEST if height is None else height for height in row] for row in cells]

# ---- Halving
def halve(a: int, b: int) -> tuple[int, int]:
    """The low and the difference of a pair."""
    return (a + b) // 2, a - b

def unhalve(low: int, difference: int) -> tuple[int, int]:
    """The pair that was halved."""
    a = low + (difference + 1) // 2
    return a, a - difference

# ---- Transform
def halve_line(line: list[int]) -> list[int]:
    """Halve neighbours: the lows in order, then the differences in order."""
    pairs = [halve(line[i], line[i + 1]) for i in range(0, len(line), 2)]
    return [low for low, _ in pairs] + [difference for _, difference in pairs]

def unhalve_line(line: list[int]) -> list[int]:
    """The line that `halve_line` was given."""
    half = len(line) // 2
    return [number for i in range(half) for number in unhalve(line[i], line[half + i])]

def get_column(grid: Grid, column: int, w: int) -> list[int]:
    """The first w numbers of a column."""
    return [grid[row][column] for row in range(w)]

def set_column(grid: Grid, column: int, numbers: list[int]) -> None:
    """Put numbers into a column from the top."""
    for row, number in enumerate(numbers):
        grid[row][column] = number

def level(grid: Grid, w: int) -> None:
    """One level on the top left square of side w, in place: rows, then columns."""
    for row in range(w):
        grid[row][:w] = halve_line(grid[row][:w])
    for column in range(w):
        set_column(grid, column, halve_line(get_column(grid, column, w)))

def undo_level(grid: Grid, w: int) -> None:
    """Undo one level in place: columns, then rows."""
    for column in range(w):
        set_column(grid, column, unhalve_line(get_column(grid, column, w)))
    for row in range(w):
        grid[row][:w] = unhalve_line(grid[row][:w])

def transform(shape: Shape, heights: Grid) -> Grid:
    """The coefficients of a map: k levels, the largest square first."""
    grid = [list(row) for row in heights]
    for done in range(shape.k):
        level(grid, 2 ** (shape.m - done))
    return grid

def undo(shape: Shape, coefficients: Grid) -> Grid:
    """The map of some coefficients: k levels, the smallest square first."""
    grid = [list(row) for row in coefficients]
    for done in reversed(range(shape.k)):
        undo_level(grid, 2 ** (shape.m - done))
    return grid

# ---- Plane count, drift and bound
def plane_count(coefficients: Grid) -> int:
    """The least P such that every coefficient has a magnitude below 2^P."""
    largest = max(abs(number) for row in coefficients for number in row)
    planes = 0
    while largest >= 2**planes:
        planes += 1
    return planes

def drift(q: int) -> int:
    """D(q): what undoing one level adds to the error at most."""
    error = 2**q - 1
    h = (error + 1) // 2  # ceil(error / 2)
    return h + (error + h + 1) // 2  # h + ceil((error + h) / 2)

def bound(q: int, k: int) -> int:
    """The admitted error of a height with q open planes and k levels."""
    return 2**q - 1 + k * drift(q)

# ---- The survey
def cells_of(block: Block) -> Iterable[Cell]:
    """The cells of a block."""
    row, column, side = block
    return ((row + down, column + right) for down in range(side) for right in range(side))

def cells_outside(side: int, x: int) -> Iterable[Cell]:
    """The rest: the cells of a grid of a side that lie outside its top left square of side x."""
    return ((row, column) for row, column in cells_of((0, 0, side)) if row >= x or column >= x)

def quarters(block: Block) -> list[Block]:
    """The quarters of a block: top left, top right, bottom left, bottom right."""
    row, column, side = block
    half = side // 2
    return [(row, column, half), (row, column + half, half), (row + half, column, half),
            (row + half, column + half, half)]

def is_significant(grid: Grid, cells: Iterable[Cell], n: int) -> bool:
    """Whether some of the cells has a magnitude of 2^n or more."""
    return any(abs(grid[row][column]) >= 2**n for row, column in cells)

def sign(grid: Grid, cell: Cell) -> str:
    """The sign of a cell: 1 for negative."""
    row, column = cell
    return "1" if grid[row][column] < 0 else "0"

def magnitude_bit(grid: Grid, cell: Cell, n: int) -> str:
    """Bit n of a cell's magnitude."""
    row, column = cell
    return str(abs(grid[row][column]) // 2**n % 2)

def ask_block(grid: Grid, n: int, block: Block, waiting: list[Block], found: list[Cell]) -> str:
    """The bits of asking a block in plane n. The parts of it that say no join the waiting list, its cells that say
    yes the found list."""
    row, column, side = block
    if not is_significant(grid, cells_of(block), n):
        waiting.append(block)
        return "0"
    if side == 1:
        found.append((row, column))
        return "1" + sign(grid, (row, column))
    return "1" + ask_blocks(grid, n, quarters(block), waiting, found)

def ask_blocks(grid: Grid, n: int, blocks: list[Block], waiting: list[Block], found: list[Cell]) -> str:
    """The bits of asking blocks one after the other, each worked through before the next."""
    return "".join([ask_block(grid, n, block, waiting, found) for block in blocks])

def ask_rest(grid: Grid, n: int, x: int, waiting: list[Block], found: list[Cell]) -> tuple[str, int]:
    """The bits of asking the rest outside the top left square of side x in plane n, and x afterwards."""
    if x == len(grid):
        return "", x
    if not is_significant(grid, cells_outside(len(grid), x), n):
        return "0", x
    blocks = ask_blocks(grid, n, [(0, x, x), (x, 0, x), (x, x, x)], waiting, found)
    new_rest, new_x = ask_rest(grid, n, 2 * x, waiting, found)
    return "1" + blocks + new_rest, new_x

@dataclass(frozen=True)
class Known:
    """What is known between two planes: the waiting blocks in the order of joining, the cells in that of finding."""
    waiting: list[Block]
    found: list[Cell]
    x: int

def known_at_first(shape: Shape) -> Known:
    """What is known before the first plane."""
    x = 2 ** (shape.m - shape.k)
    return Known([(0, 0, x)], [], x)

def ask_plane(grid: Grid, n: int, before: Known) -> tuple[str, Known]:
    """The bits of plane n, and what is known after it.

    The waiting list is made anew. Blocks of one side keep their order in it: those that say no again are asked
    before the larger blocks whose quarters join behind them.
    """
    waiting: list[Block] = []
    found: list[Cell] = []
    by_side = sorted(before.waiting, key=lambda block: block[2])  # sorting keeps the order within one side
    blocks = ask_blocks(grid, n, by_side, waiting, found)
    rest, x = ask_rest(grid, n, before.x, waiting, found)
    refinement = "".join(magnitude_bit(grid, cell, n) for cell in before.found)
    return blocks + rest + refinement, Known(waiting, before.found + found, x)

def survey_planes(head: Head, grid: Grid) -> list[str]:
    """The survey of a grid: the bits of each plane, from P - 1 down to 0."""
    planes: list[str] = []
    known = known_at_first(head)
    for n in reversed(range(head.planes)):
        bits, known = ask_plane(grid, n, known)
        planes.append(bits)
    return planes

# ---- Sending
def bytes_for(bits: int) -> int:
    """How many bytes hold a number of bits."""
    return (bits + 7) // 8

def pack(bits: str) -> bytes:
    """Bits as bytes, the first bit the highest of the first byte; unused lower bits of the last byte are 0."""
    filled = bits.ljust(8 * bytes_for(len(bits)), "0")
    return bytes(int(filled[i : i + 8], 2) for i in range(0, len(filled), 8))

def send(head: Head, grid: Grid, slot: int, buffer: bytearray) -> int:
    """Write the first bits of a survey into a buffer and give their number: refused with 8, then 9."""
    if slot > MOST_BITS:
        raise Refusal(8)
    if len(buffer) < bytes_for(slot):
        raise Refusal(9)
    bits = "".join(survey_planes(head, grid))[:slot]
    buffer[: bytes_for(len(bits))] = pack(bits)
    return len(bits)
