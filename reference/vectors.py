"""Reference for the program `vectors`, written from docs/RULES.md alone: python3 reference/vectors.py < stacks

The bare grid and the peak grid have the same meaning, so here one sending stands for both.
"""
from __future__ import annotations
import sys

from codec import MOST_BITS, Grid, Head, bytes_for, send
from survey import Fault, parse, transform_with_head

BETWEEN = b"\f"  # one stack and the next

def sent_whole(head: Head, grid: Grid) -> tuple[int, bytes]:
    """The number of bits of the whole survey, and the bytes that hold them."""
    buffer = bytearray(bytes_for(MOST_BITS))
    bits = send(head, grid, MOST_BITS, buffer)
    return bits, bytes(buffer[: bytes_for(bits)])

def sent_cut(head: Head, grid: Grid, slot: int, size: int) -> bytes:
    """The whole of a buffer of a size that had all its bits set before the sending."""
    buffer = bytearray(b"\xff" * size)
    send(head, grid, slot, buffer)
    return bytes(buffer)

def line_of(*words: object) -> str:
    """A line of words divided by one space; a word of nothing has no blank before it."""
    return " ".join(str(word) for word in words if word != "") + "\n"

def report(stack: bytes) -> str:
    """The four lines for one stack."""
    head, grid = transform_with_head(*parse(stack))
    bits, whole = sent_whole(head, grid)
    cut = sent_cut(head, grid, bits // 2, len(whole))
    return (line_of("side", head.side, "levels", head.k, "planes", head.planes, "bits", bits)
            + line_of("bare", whole.hex()) + line_of("peak", whole.hex()) + line_of("cut", bits // 2, cut.hex()))

def run(data: bytes) -> tuple[bytes, bytes, int]:
    """Standard output, standard error and status for an input; the first stack turned down decides."""
    try:
        return "".join(report(stack) for stack in data.split(BETWEEN)).encode(), b"", 0
    except Fault as fault:
        return b"", f"{fault}\n".encode(), 1

def main() -> int:
    """The command."""
    out, err, status = run(sys.stdin.buffer.read())
    sys.stdout.buffer.write(out)
    sys.stderr.buffer.write(err)
    return status

if __name__ == "__main__":
    sys.exit(main())
