"""Turn a stack into the bytes that the program `bench` reads: python3 bench/bytes.py < stack > bytes

m, k, then for each cell in row order its height as two bytes, high byte first; -32768 for a cell without an echo.
"""
from __future__ import annotations
import sys

NO_ECHO = -32768

def main() -> None:
    """The command."""
    m, k, *cells = sys.stdin.read().split()
    heights = [NO_ECHO if cell == "." else int(cell) for cell in cells]
    sys.stdout.buffer.write(bytes([int(m), int(k)]) + b"".join(height.to_bytes(2, "big", signed=True) for height in heights))

if __name__ == "__main__":
    main()
