"""Tests of the reference on examples computed by hand, and on random maps: python3 reference/test_survey.py

Prints one line and ends with status 0 when all is well; names each failed check and ends with 1 otherwise.
"""
from __future__ import annotations
import random
import sys
from pathlib import Path
from typing import Callable

import codec
import make_vectors
import survey
import vectors
from codec import (Block, Cell, Frame, Grid, Head, Refusal, Shape, bound, drift, halve, pack, plane_count, send,
                   survey_planes, transform, undo, unhalve)

ROOT = Path(__file__).resolve().parent.parent
EXAMPLE_IN = b"1 1\n10 7\n4 5\n"
EXAMPLE_OUT = b"side 2 levels 1 planes 3\ncoefficients\n6 1\n4 4\nheights\n10 7\n4 5\n"
EXAMPLE_SENT = b"side 2 levels 1 planes 3 bits 17\nbare aa4800\npeak aa4800\ncut 8 aaffff\n"
EXAMPLE_HEAD, EXAMPLE_GRID = Head(1, 1, 3), [[6, 1], [4, 4]]
DRIFTS = [0, 2, 5, 10, 20, 40, 80, 160, 320, 640, 1280, 2560, 5120, 10240, 20480, 40960]
WORDS = ["side", "levels", "planes", "height", "cell", "told twice", "edition", "slot", "buffer", "surplus",
         "contradiction", "trailer", "padding"]
failures: list[str] = []
checks = 0

def same(name: str, got: object, wanted: object) -> None:
    """Count a check, and note it if it fails."""
    global checks
    checks += 1
    if got != wanted:
        failures.append(f"{name}: got {got!r}, wanted {wanted!r}")

def refused(number: int, call: Callable[[], object]) -> None:
    """The call has to be refused with the number and its word."""
    try:
        same(f"refusal {number}", call(), "a refusal")
    except Refusal as refusal:
        same(f"refusal {number}", (refusal.number, refusal.word), (number, WORDS[number - 1]))

def shapes() -> list[Shape]:
    """All shapes there are."""
    return [Shape(m, k) for m in range(1, 7) for k in range(m + 1)]

def constant(side: int, number: int) -> Grid:
    """A grid with the same number everywhere."""
    return [[number] * side for _ in range(side)]

def random_grid(dice: random.Random, side: int, least: int, most: int) -> Grid:
    """A grid of random numbers; one in three grids has only the two ends of the range."""
    if dice.randrange(3) == 0:
        return [[dice.choice((least, most)) for _ in range(side)] for _ in range(side)]
    return [[dice.randint(least, most) for _ in range(side)] for _ in range(side)]

def largest(grid: Grid) -> int:
    """The largest magnitude in a grid."""
    return max(abs(number) for row in grid for number in row)

def test_refusals() -> None:
    same("words of the refusals", codec.REFUSALS, {number + 1: word for number, word in enumerate(WORDS)})
    for m in (0, 7, 255):
        refused(1, lambda: Shape(m, 0))
        refused(1, lambda: Shape(m, 255))  # 1 before 2
        refused(1, lambda: Head(m, 255, 255))  # 1 before 2 and 3
    for m in range(1, 7):
        refused(2, lambda: Shape(m, m + 1))
        refused(2, lambda: Head(m, m + 1, 16))  # 2 before 3
        refused(3, lambda: Head(m, m, 16))

def test_head() -> None:
    same("bytes of a head", codec.write_head(Head(6, 5, 14)), bytes([1, 6, 5, 14]))
    same("bytes of the least head", codec.write_head(Head(1, 0, 0)), bytes([1, 1, 0, 0]))
    same("head with surplus bytes", codec.read_head(bytes([1, 6, 5, 14, 99])), Head(6, 5, 14))
    for shape in shapes():
        for planes in range(16):
            head = Head(shape.m, shape.k, planes)
            same("head read back", codec.read_head(codec.write_head(head)), head)
    for short in (b"", b"\x01", b"\x01\x01\x01", b"\x02\x07\x09"):  # 9 before everything else
        refused(9, lambda: codec.read_head(short))
    refused(1, lambda: codec.read_head(bytes([2, 0, 9, 16])))
    refused(1, lambda: codec.read_head(bytes([1, 7, 0, 0])))
    refused(2, lambda: codec.read_head(bytes([2, 3, 4, 16])))
    refused(3, lambda: codec.read_head(bytes([2, 3, 3, 16])))
    refused(7, lambda: codec.read_head(bytes([2, 3, 3, 15])))
    refused(7, lambda: codec.read_head(bytes([0, 3, 3, 15, 1])))

def test_frame() -> None:
    frame = Frame(Shape(1, 1))
    for height in (-8193, 8192, 2147483647):
        refused(4, lambda: frame.enter(0, 0, height))
        refused(4, lambda: frame.enter(2, 2, height))  # 4 before 5
    refused(5, lambda: frame.enter(2, 0, 0))
    refused(5, lambda: frame.enter(0, 2, 0))
    frame.enter(0, 1, 8191)
    refused(4, lambda: frame.enter(0, 1, 8192))  # 4 before 6
    refused(6, lambda: frame.enter(0, 1, 5))
    refused(6, lambda: frame.enter(0, 1, 8191))
    frame.enter(1, 0, -8192)
    refused(6, lambda: frame.enter(1, 0, 3))  # told, although as an untold cell stands in the end
    same("closed frame", frame.close(), [[-8192, 8191], [-8192, -8192]])
    for late in (lambda: frame.enter(0, 0, 0), frame.close):
        try:
            same("after the close", late(), "an error")
        except AttributeError:
            pass

def test_halving() -> None:
    for pair, halved in (((-3, 4), (0, -7)), ((4, -3), (0, 7)), ((0, 0), (0, 0)), ((-1, 0), (-1, -1)),
                         ((0, -1), (-1, 1)), ((-8192, 8191), (-1, -16383)), ((8191, -8192), (-1, 16383))):
        same(f"halving {pair}", halve(*pair), halved)
        same(f"undoing {halved}", unhalve(*halved), pair)
    for a in range(-20, 21):
        for b in range(-20, 21):
            same(f"halving and undoing {a}, {b}", unhalve(*halve(a, b)), (a, b))
            same(f"undoing and halving {a}, {b}", halve(*unhalve(a, b)), (a, b))

def test_transform() -> None:
    one = Shape(1, 1)
    same("example", transform(one, [[10, 7], [4, 5]]), [[6, 1], [4, 4]])
    same("example undone", undo(one, [[6, 1], [4, 4]]), [[10, 7], [4, 5]])
    same("no level", transform(Shape(1, 0), [[10, 7], [4, 5]]), [[10, 7], [4, 5]])
    # Side 4: after the rows 1 5 -2 -4 / 2 6 0 0 / 9 0 0 1 / -1 3 -1 8, then the columns.
    steep = [[0, 2, 3, 7], [2, 2, 6, 6], [9, 9, 1, 0], [-1, 0, 7, -1]]
    same("one level of two", transform(Shape(2, 1), steep),
         [[1, 5, -1, -2], [4, 1, -1, 4], [-1, -1, -2, -4], [10, -3, 1, -7]])
    # The second level on 1 5 / 4 1: rows 3 -4 / 2 3, columns 2 1 and -1 -7.
    same("two levels", transform(Shape(2, 2), steep),
         [[2, -1, -1, -2], [1, -7, -1, 4], [-1, -1, -2, -4], [10, -3, 1, -7]])
    for shape in shapes():
        same("zeros", transform(shape, constant(shape.side, 0)), constant(shape.side, 0))

def test_planes() -> None:
    for number, planes in ((0, 0), (1, 1), (-1, 1), (2, 2), (3, 2), (-4, 3), (6, 3), (7, 3), (8, 4), (-8192, 14),
                           (8191, 13), (16383, 14), (32766, 15), (-32767, 15)):
        same(f"planes of {number}", plane_count([[0, 0], [number, 0]]), planes)
    for shape in shapes():
        same("planes of a map of zeros", plane_count(transform(shape, constant(shape.side, 0))), 0)
    chess = transform(Shape(1, 1), [[8191, -8192], [-8192, 8191]])
    same("steepest map", chess, [[-1, 0], [0, 32766]])
    same("planes of the steepest map", plane_count(chess), 15)

def test_bound() -> None:
    same("drift", [drift(q) for q in range(16)], DRIFTS)
    for k in range(7):
        same(f"bound(0, {k})", bound(0, k), 0)
        for q in range(15):
            same(f"bound rises from q {q}", bound(q, k) < bound(q + 1, k), True)
    same("bound(3, 1)", bound(3, 1), 17)
    same("bound(2, 1)", bound(2, 1), 8)
    same("bound(15, 6)", bound(15, 6), 278527)
    # Coefficients of 7 against coefficients of 0: the corner is off by the whole bound.
    same("sevens undone", undo(Shape(1, 1), constant(2, 7)), [[17, 6], [6, 2]])
    same("corner of the largest coefficients", undo(Shape(6, 6), constant(64, 32767))[0][0], 278527)

def test_random() -> None:
    dice = random.Random(20)
    for shape in shapes():
        for heights in [random_grid(dice, shape.side, -8192, 8191) for _ in range(6)] + [
            constant(shape.side, -8192), constant(shape.side, 8191)]:
            coefficients = transform(shape, heights)
            same(f"undone transform, {shape}", undo(shape, coefficients), heights)
            same(f"planes at most 15, {shape}", plane_count(coefficients) <= 15, True)
            for q in dice.sample(range(16), 3):
                off = random_grid(dice, shape.side, 1 - 2**q, 2**q - 1)
                shaken = undo(shape, [[a + b for a, b in zip(*rows)] for rows in zip(coefficients, off)])
                error = largest([[a - b for a, b in zip(*rows)] for rows in zip(heights, shaken)])
                same(f"error {error} within bound({q}, {shape.k})", error <= bound(q, shape.k), True)
        for _ in range(3):
            coefficients = random_grid(dice, shape.side, -32767, 32767)
            heights = undo(shape, coefficients)
            same(f"readings at most 278527, {shape}", largest(heights) <= 278527, True)
            same(f"transform of the undone, {shape}", transform(shape, heights), coefficients)

def head_of(shape: Shape, grid: Grid) -> Head:
    """The head with the plane count of a grid."""
    return Head(shape.m, shape.k, plane_count(grid))

def test_survey() -> None:
    same("example", survey_planes(EXAMPLE_HEAD, EXAMPLE_GRID), ["10101010", "0100", "10000"])
    # No level: the whole grid is the first block, and there is no rest.
    same("no level", survey_planes(Head(1, 0, 3), EXAMPLE_GRID), ["1" "10" "0" "10" "10", "0" "100", "10" "000"])
    same("signs", survey_planes(Head(1, 1, 2), [[-3, 0], [0, 2]]), ["11" "1" "0" "0" "10", "00" "10"])
    # The rest says no in plane 2; in plane 1 it says yes and the new rest no; in plane 0 that one says yes.
    late = [[7, 2, 0, 0], [0, 0, 0, 0], [0, 0, 0, 0], [0, 0, 0, 1]]
    same("rest said yes late", survey_planes(Head(2, 2, 3), late),
         ["10" "0", "1" "10" "0" "0" "0" "1", "00" "1" "0" "0" "1" "000" "10" "10"])
    # Plane 2: both rests say yes; only 5 is found. Plane 1: seven single cells, 2 among them, before two blocks, the
    # second with -3. Plane 0: the cells of that block come behind the older ones, 1 among them, and before the block.
    order = [[0, 0, 0, 0], [2, 0, 0, 0], [0, 0, 5, 0], [0, -3, 0, 1]]
    same("smallest first", survey_planes(Head(2, 2, 3), order),
         ["0" "1" "000" "1" "0" "0" "1" "10" "000", "00" "10" "0000" "0" "1" "000" "11" "0",
          "00000" "10" "000" "0" "101"])
    same("first block of side 2", survey_planes(Head(2, 1, 1), [[0, 0, 0, 0], [0, 0, 0, 0], [0] * 4, [-1, 0, 0, 0]]),
         ["0" "1" "0" "1" "00" "11" "0" "0"])
    counted = survey_planes(head_of(make_vectors.COUNTED_SHAPE, make_vectors.COUNTED), make_vectors.COUNTED)
    same("counted planes", [len(bits) for bits in counted][:2] + [len(counted)], [29, 21, 6])
    for shape in shapes():
        same("survey of zeros", survey_planes(Head(shape.m, shape.k, 0), constant(shape.side, 0)), [])
        # Every part is asked once and every cell has its sign, then every cell has a bit in every plane. The parts are
        # all blocks of all sides; for each level a rest stands for a block that holds the first one.
        cells = 4**shape.m
        same(f"largest everywhere, {shape}",
             [len(bits) for bits in survey_planes(Head(shape.m, shape.k, 15), constant(shape.side, -32767))],
             [(4 * cells - 1) // 3 + cells] + 14 * [cells])

def grids(dice: random.Random, shape: Shape) -> list[Grid]:
    """Grids of many kinds: small and large numbers, few that are not 0, the same everywhere, and transforms."""
    side = shape.side
    few = constant(side, 0)
    for _ in range(dice.randint(1, 3)):
        few[dice.randrange(side)][dice.randrange(side)] = dice.choice((-1, 1)) * dice.randint(1, 32767)
    steep = [[dice.choice((-1, 1)) * (2 ** dice.randrange(16) - 1) for _ in range(side)] for _ in range(side)]
    return [few, steep, constant(side, 0), random_grid(dice, side, -1, 1), random_grid(dice, side, -40, 40),
            random_grid(dice, side, -32767, 32767), transform(shape, random_grid(dice, side, -8192, 8191))]

def rebuilt(head: Head, bits: str) -> Grid:
    """The grid that a whole survey tells, read with a list of the blocks still to be asked, the next one last."""
    read = 0
    def yes() -> bool:
        nonlocal read
        read += 1
        return bits[read - 1 : read] == "1"  # no where the bits have ended
    side, x = head.side, head.side // 2**head.k
    grid, waiting = constant(side, 0), [(0, 0, x)]
    found: list[Cell] = []
    for n in reversed(range(head.planes)):
        earlier = list(found)
        ahead: list[Block] = [block for s in reversed(range(7)) for block in reversed(waiting) if block[2] == 2**s]
        waiting = []
        while ahead or (x < side and yes()):
            if not ahead:
                ahead, x = [(x, x, x), (x, 0, x), (0, x, x)], 2 * x
                continue
            row, column, width = ahead.pop()
            half = width // 2
            if not yes():
                waiting.append((row, column, width))
            elif width == 1:
                found.append((row, column))
                grid[row][column] = -(2**n) if yes() else 2**n
            else:
                ahead += [(row + down, column + right, half) for down in (half, 0) for right in (half, 0)]
        for row, column in earlier:
            if yes():
                grid[row][column] += 2**n if grid[row][column] > 0 else -(2**n)
    same(f"bits read, {head}", read, len(bits))
    return grid

def signs_in(grid: Grid, n: int) -> int:
    """How many signs plane n has: one for each cell whose highest bit is bit n."""
    return sum(2**n <= abs(number) < 2 ** (n + 1) for row in grid for number in row)

def test_survey_laws() -> None:
    dice = random.Random(22)
    for shape in shapes():
        for grid in grids(dice, shape):
            head = head_of(shape, grid)
            planes = survey_planes(head, grid)
            whole = "".join(planes)
            same(f"lines for planes, {shape}", len(planes), head.planes)
            same(f"bits only, {shape}", set(whole) <= {"0", "1"}, True)
            same(f"{len(whole)} bits are not too many, {shape}", len(whole) <= 86101, True)
            for n, bits in zip(reversed(range(head.planes)), planes):
                besides = len(bits) - signs_in(grid, n)
                same(f"{besides} answers besides signs are not too many, {shape}", besides <= 5467, True)
            same(f"grid rebuilt, {shape}", rebuilt(head, whole) == grid, True)

def test_pack() -> None:
    for bits, wanted in (("", b""), ("1", b"\x80"), ("0", b"\0"), ("00000001", b"\x01"), ("000000001", b"\0\x80"),
                         ("10101010010010000", b"\xaa\x48\0"), ("1111111111", b"\xff\xc0")):
        same(f"bytes of {bits!r}", pack(bits), wanted)
    dice = random.Random(23)
    for length in range(100):
        bits = "".join(dice.choice("01") for _ in range(length))
        same(f"bytes for {length} bits", len(pack(bits)), codec.bytes_for(length))
        same(f"bytes of {bits!r}", "".join(f"{byte:08b}" for byte in pack(bits)).rstrip("0"), bits.rstrip("0"))

def test_sending() -> None:
    def sent(slot: int, size: int) -> tuple[int, bytes]:
        """What is answered, and the buffer, which had all its bits set."""
        buffer = bytearray(b"\xff" * size)
        return send(EXAMPLE_HEAD, EXAMPLE_GRID, slot, buffer), bytes(buffer)
    for slot, size, wanted in (
        (0, 0, (0, b"")), (0, 2, (0, b"\xff\xff")), (1, 1, (1, b"\x80")), (2, 2, (2, b"\x80\xff")),
        (3, 1, (3, b"\xa0")), (8, 3, (8, b"\xaa\xff\xff")), (9, 3, (9, b"\xaa\0\xff")),
        (10, 2, (10, b"\xaa\x40")), (16, 2, (16, b"\xaa\x48")), (17, 3, (17, b"\xaa\x48\0")),
        (18, 4, (17, b"\xaa\x48\0\xff")),  # the slot has more bits than the survey
        (32, 4, (17, b"\xaa\x48\0\xff")), (86101, 10763, (17, b"\xaa\x48\0" + b"\xff" * 10760)),
    ):
        same(f"sent with a slot of {slot}", sent(slot, size), wanted)
    for number, slot, size in ((8, 86102, 20000), (8, 86102, 0), (8, 2**64 - 1, 3), (9, 86101, 10762), (9, 1, 0),
                               (9, 8, 0), (9, 9, 1), (9, 17, 2), (9, 25, 3)):  # 9 although the survey would have room
        before = bytes(range(256)) * (size // 256 + 1)
        buffer = bytearray(before[:size])
        refused(number, lambda: send(EXAMPLE_HEAD, EXAMPLE_GRID, slot, buffer))
        same(f"buffer after refusal {number}", bytes(buffer), before[:size])
    zeros = bytearray(b"\xff" * 3)
    same("zeros sent", (send(Head(1, 1, 0), constant(2, 0), 24, zeros), zeros), (0, b"\xff" * 3))

def test_sending_laws() -> None:
    dice = random.Random(24)
    for shape in shapes()[:14]:  # sides up to 16
        for grid in grids(dice, shape):
            head = head_of(shape, grid)
            whole = "".join(survey_planes(head, grid))
            for slot in (0, len(whole), len(whole) + 1, dice.randint(0, len(whole)), dice.randint(0, len(whole))):
                before = dice.randbytes(codec.bytes_for(slot) + dice.randrange(3))
                buffer = bytearray(before)
                written = send(head, grid, slot, buffer)
                full = codec.bytes_for(written)
                same("bits written", written, min(slot, len(whole)))
                same("bytes written", "".join(f"{byte:08b}" for byte in buffer[:full]),
                     whole[:written] + "0" * (8 * full - written))
                same("bytes behind", buffer[full:], before[full:])

def test_program() -> None:
    same("sample", (ROOT / "samples" / "example.txt").read_bytes(), EXAMPLE_IN)
    for good in (EXAMPLE_IN, b"1 1\n10 7\n4 5", b"+1 001\r\n\t10  7 \r\n\f+4 5\r\n\r\n \n\n"):
        same(f"program on {good!r}", survey.run(good), (EXAMPLE_OUT, b"", 0))
    same("no echo, no level", survey.run(b"1 0\n. -0\n-8192 ." + b"\n" * 9),
         (b"side 2 levels 0 planes 14\ncoefficients\n-8192 0\n-8192 -8192\nheights\n-8192 0\n-8192 -8192\n", b"", 0))
    same("map of zeros", survey.run(b"1 1\n0 0\n0 0\n"),
         (b"side 2 levels 1 planes 0\ncoefficients\n0 0\n0 0\nheights\n0 0\n0 0\n", b"", 0))
    for bad, line in (
        (b"", "line 1: expected m and k"), (b"\n1 1\n1 2\n3 4\n", "line 1: expected m and k"),
        (b"1", "line 1: expected m and k"), (b"1 1 1", "line 1: expected m and k"),
        (b"0 256", "line 1: expected m and k"), (b"-0 0", "line 1: expected m and k"),
        (b"0 255", "line 1: 1 side"), (b"7 8", "line 1: 1 side"), (b"6 7", "line 1: 2 levels"),
        (b"1 1", "line 2: expected 2 entries"), (b"1 1\n1 2\n", "line 3: expected 2 entries"),
        (b"1 1\n1 2\n\n3 4\n", "line 3: expected 2 entries"), (b"1 1\n1 2 x\n", "line 2: expected 2 entries"),
        (b"1 1\n1 x 2\n", "line 2: expected a height or ."), (b"1 1\nx", "line 2: expected a height or ."),
        (b"1 1\n8192\n", "line 2: 4 height"), (b"1 1\n1 2\n. -8193 .\n", "line 3: 4 height"),
        (b"1 1\n2147483648 2\n", "line 2: expected a height or ."), (b"1 1\n2147483647 2\n", "line 2: 4 height"),
        (b"1 1\n1 -2147483649\n", "line 2: expected a height or ."), (b"1 1\n1 -2147483648\n", "line 2: 4 height"),
        (b"1\xc2\xa01\n", "line 1: expected m and k"), (b"\xef\xbb\xbf1 1\n", "line 1: expected m and k"),
        (b"1 1\n1\v2\n", "line 2: expected a height or ."), (b"1 1\n\xd9\xa3 2\n", "line 2: expected a height or ."),
        (b"1 1\n1_0 2\n", "line 2: expected a height or ."), (b"1 1\n1 --2\n", "line 2: expected a height or ."),
        (b"1 1\n1 2\n3 4\n\n \n.", "line 6: expected no more rows"),
        (b"x\n\n\xe2\x82\n\xff", "line 3: expected text"), (b"\xc0\x80", "line 1: expected text"),
    ):
        same(f"program on {bad!r}", survey.run(bad), (b"", line.encode() + b"\n", 1))

def test_vectors() -> None:
    same("example", vectors.run(EXAMPLE_IN), (EXAMPLE_SENT, b"", 0))
    zeros = b"1 0\n0 0\n0 0\n"
    zeros_sent = b"side 2 levels 0 planes 0 bits 0\nbare\npeak\ncut 0\n"
    same("zeros", vectors.run(zeros), (zeros_sent, b"", 0))
    same("three stacks", vectors.run(EXAMPLE_IN + b"\f" + zeros + b"\f" + EXAMPLE_IN),
         (EXAMPLE_SENT + zeros_sent + EXAMPLE_SENT, b"", 0))
    # The survey is 1 0 0 0 11 in plane 1 and 11 11 11 0 in plane 0.
    same("cut of 6 bits", vectors.run(b"1 0\n-1 -1\n-1 -2\n"),
         (b"side 2 levels 0 planes 2 bits 13\nbare 8ff0\npeak 8ff0\ncut 6 8cff\n", b"", 0))
    for bad in (b"", b"1 1\n1 2\n3\n", b"1 2\n", b"1 1\n\xff", b"1 1\n1 2\n3 4\n5"):
        line = survey.run(bad)[1]
        same(f"stack {bad!r} alone", vectors.run(bad), (b"", line, 1))
        same(f"stack {bad!r} behind another", vectors.run(EXAMPLE_IN + b"\f" + bad), (b"", line, 1))
        same(f"stack {bad!r} before another", vectors.run(bad + b"\f" + EXAMPLE_IN + b"\f7 7"), (b"", line, 1))
    made = make_vectors.stacks()
    same("enough stacks", len(made) >= 220, True)
    same("all shapes", {survey.parse(stack.encode())[0] for stack in made}, set(shapes()))
    same("made twice", make_vectors.stored_input(), b"\f".join(stack.encode() for stack in made))

def main() -> int:
    """Run all tests."""
    for test in (test_refusals, test_head, test_frame, test_halving, test_transform, test_planes, test_bound,
                 test_random, test_survey, test_survey_laws, test_pack, test_sending, test_sending_laws, test_program,
                 test_vectors):
        test()
    for failure in failures:
        print(failure)
    if not failures:
        print(f"reference: {checks} checks passed")
    return 1 if failures else 0

if __name__ == "__main__":
    sys.exit(main())
