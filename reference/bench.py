"""Reference for what the program `bench` prints on standard output: python3 reference/bench.py < bytes

The input is a stack as bytes: m, k, then for each cell in row order its height as two bytes, high byte first;
-32768 for a cell without an echo.
"""
from __future__ import annotations
import sys

from codec import Frame, Shape
from survey import transform_with_head
from vectors import sent_whole

NO_ECHO = -32768

def parse(data: bytes) -> Frame:
    """The open frame that the bytes tell of."""
    frame = Frame(Shape(data[0], data[1]))
    for place in range((len(data) - 2) // 2):
        height = int.from_bytes(data[2 + 2 * place : 4 + 2 * place], "big", signed=True)
        if height != NO_ECHO:
            frame.enter(place // frame.shape.side, place % frame.shape.side, height)
    return frame

def fnv(data: bytes) -> int:
    """The 32-bit FNV-1a hash."""
    sum = 2166136261
    for byte in data:
        sum = (sum ^ byte) * 16777619 % 2**32
    return sum

def run(data: bytes) -> tuple[bytes, bytes, int]:
    """Standard output, standard error and status for an input without an argument."""
    frame = parse(data)
    bits, whole = sent_whole(*transform_with_head(frame.shape, frame.close()))
    return f"bits {bits}\nsum {fnv(whole)}\n".encode(), b"", 0

if __name__ == "__main__":
    sys.stdout.buffer.write(run(sys.stdin.buffer.read())[0])
