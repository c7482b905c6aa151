"""Compare the stored files with what the references compute: python3 reference/stored.py [--write]

crates/vectors/stdin has to be what make_vectors.py makes, and for each program below crates/NAME/stdout what it
prints for crates/NAME/stdin.
Silent with status 0 when all is well; one line for each file that is not, and status 1 otherwise.
With --write the outputs are written instead of compared. The input is written by make_vectors.py.
"""
from __future__ import annotations
import sys
from pathlib import Path
from typing import Callable

import bench
import make_vectors
import survey
import vectors

PROGRAMS: dict[str, Callable[[bytes], tuple[bytes, bytes, int]]] = {
    "bench": bench.run, "survey": survey.run, "vectors": vectors.run,
}
ROOT = Path(__file__).resolve().parent.parent

def difference(path: Path, wanted: bytes) -> str | None:
    """What is wrong with a stored file, or None."""
    if not (ROOT / path).is_file():
        return f"{path}: missing"
    return None if (ROOT / path).read_bytes() == wanted else f"{path}: differs from the reference"

def fault_of(name: str, write: bool) -> str | None:
    """Compare or write the stored output of one program; what is wrong with it, or None."""
    source, stored = Path("crates", name, "stdin"), Path("crates", name, "stdout")
    if not (ROOT / source).is_file():
        return f"{source}: missing"
    out, err, status = PROGRAMS[name]((ROOT / source).read_bytes())
    if status != 0:
        return f"{source}: turned down: {err.decode().rstrip()}"
    if write:
        (ROOT / stored).write_bytes(out)
        return None
    return difference(stored, out)

def main(arguments: list[str]) -> int:
    """The command."""
    if arguments not in ([], ["--write"]):
        print("usage: python3 reference/stored.py [--write]", file=sys.stderr)
        return 2
    faults = [difference(make_vectors.STORED, make_vectors.stored_input())]
    faults += [fault_of(name, bool(arguments)) for name in PROGRAMS]
    lines = [fault for fault in dict.fromkeys(faults) if fault is not None]  # each once
    for line in lines:
        print(line)
    return 1 if lines else 0

if __name__ == "__main__":
    sys.exit(main(sys.argv[1:]))
