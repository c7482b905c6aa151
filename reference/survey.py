"""Reference for the program `survey`, written from docs/RULES.md alone: python3 reference/survey.py < stack

The rules that decide numbers and bits are in codec.py; here is how a stack is read and what is printed.
"""
from __future__ import annotations
import re
import sys

from codec import Frame, Grid, Head, Refusal, Shape, plane_count, transform, undo

# ---- Input
class Fault(Exception):
    """The input is turned down; the text is the line said about it."""
    def __init__(self, line: int, what: object) -> None:
        super().__init__(f"line {line}: {what}")

def text_of(data: bytes) -> str:
    """The text of the input, which has to be UTF-8."""
    try:
        return data.decode("utf-8")
    except UnicodeDecodeError as error:
        raise Fault(1 + data[: error.start].count(b"\n"), "expected text") from None

def words_of(line: str) -> list[str]:
    """The words between blanks: space, tab, form feed, carriage return and nothing else."""
    return re.findall(r"[^ \t\f\r]+", line)

def number_of(word: str, signs: str, least: int, most: int) -> int | None:
    """The number a word writes as one of the signs or none, then digits 0 to 9; None if none or out of range."""
    found = re.fullmatch(rf"([{signs}]?)0*([0-9]{{1,10}})", word)  # no range asked for has longer numbers
    number = int(found[1] + found[2]) if found else None
    return number if number is not None and least <= number <= most else None

def parse_shape(words: list[str]) -> Shape:
    """The shape of the first line."""
    numbers = [number_of(word, "+", 0, 255) for word in words]
    if len(numbers) != 2 or None in numbers:
        raise Fault(1, "expected m and k")
    try:
        return Shape(*numbers)
    except Refusal as refusal:
        raise Fault(1, refusal) from None

def enter_row(frame: Frame, row: int, words: list[str], line: int) -> None:
    """Enter the words of one row, from left to right."""
    side = frame.shape.side
    for column, word in enumerate(words):
        if column >= side:
            raise Fault(line, f"expected {side} entries")
        if word == ".":
            continue
        height = number_of(word, "+-", -(2**31), 2**31 - 1)
        if height is None:
            raise Fault(line, "expected a height or .")
        try:
            frame.enter(row, column, height)
        except Refusal as refusal:
            raise Fault(line, refusal) from None
    if len(words) < side:
        raise Fault(line, f"expected {side} entries")

def parse(data: bytes) -> tuple[Shape, Grid]:
    """The shape and the closed frame of a stack. Its lines count from 1, the list of them from 0."""
    lines = [words_of(line) for line in text_of(data).split("\n")]
    shape = parse_shape(lines[0])
    frame = Frame(shape)
    for row in range(shape.side):
        words = lines[1 + row] if 1 + row < len(lines) else []  # no words where the input has ended
        enter_row(frame, row, words, 2 + row)
    for index in range(1 + shape.side, len(lines)):
        if lines[index]:
            raise Fault(index + 1, "expected no more rows")
    return shape, frame.close()

# ---- Output
def lines_of(grid: Grid) -> list[str]:
    """The rows of a grid, numbers divided by one space."""
    return [" ".join(str(number) for number in row) for row in grid]

def transform_with_head(shape: Shape, heights: Grid) -> tuple[Head, Grid]:
    """The coefficients of a map, and their head."""
    coefficients = transform(shape, heights)
    return Head(shape.m, shape.k, plane_count(coefficients)), coefficients

def report(shape: Shape, heights: Grid) -> str:
    """All that is printed for a good stack."""
    head, coefficients = transform_with_head(shape, heights)
    lines = [f"side {shape.side} levels {shape.k} planes {head.planes}",
             "coefficients", *lines_of(coefficients), "heights", *lines_of(undo(shape, coefficients))]
    return "".join(line + "\n" for line in lines)

def run(data: bytes) -> tuple[bytes, bytes, int]:
    """Standard output, standard error and status for an input."""
    try:
        return report(*parse(data)).encode(), b"", 0
    except Fault as fault:
        return b"", f"{fault}\n".encode(), 1

def main() -> int:
    """The command."""
    out, err, status = run(sys.stdin.buffer.read())
    sys.stdout.buffer.write(out)
    sys.stderr.buffer.write(err)
    return status

if __name__ == "__main__":
    sys.exit(main())
