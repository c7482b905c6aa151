"""Run a program on good and bad inputs and compare it with the reference: python3 reference/faults.py PROGRAM

Standard output, standard error and status have to be those of reference/survey.py.
Silent with status 0 when all is well; names each input that differs, and status 1 otherwise.
"""
from __future__ import annotations
import os
import random
import subprocess
import sys

import survey

SECONDS = 60  # for one run
FOUR = b"2 2\n1 2 3 4\n5 6 7 8\n9 10 11 12\n13 14 15 16\n"

CASES: dict[str, bytes] = {
    # Good ones
    "example": b"1 1\n10 7\n4 5\n",
    "no final line feed": b"1 1\n10 7\n4 5",
    "line ends of two characters": b"1 1\r\n10 7\r\n4 5\r\n",
    "carriage return at the end of input": b"1 1\n10 7\n4 5\r",
    "carriage return between words": b"1\r1\n10\r7\n\r4\r\r5\n",
    "tabs": b"\t1\t1\t\n10\t7\n\t\t4 \t 5\t\n",
    "form feeds": b"\f1\f1\n10\f\f7\f\n4 5\n\f\n",
    "many blanks": b"   1    1   \n  10      7 \n4                5     \n",
    "surplus lines without a word": b"1 1\n10 7\n4 5\n\n \n\t\r\n\f\n   ",
    "plus signs": b"+1 +1\n+10 +7\n+4 +0\n",
    "minus zero": b"1 1\n-0 -00\n0 +0\n",
    "leading zeros": b"001 0001\n0010 -0007\n+004 00000000000000000000000005\n",
    "thousands of leading zeros": b"1 " + b"0" * 9999 + b"1\n10 " + b"0" * 9999 + b"7\n4 -" + b"0" * 9999 + b"5\n",
    "no echo anywhere": b"1 1\n. .\n. .\n",
    "some without an echo": b"2 1\n1 . 3 .\n. . 7 8\n9 10 11 12\n13 14 15 .\n",
    "no level": b"1 0\n10 7\n4 5\n",
    "ends of the heights": b"1 1\n8191 -8192\n-8192 8191\n",
    "lowest heights": b"1 1\n-8192 -8192\n-8192 -8192\n",
    "side 4": FOUR,
    # First line
    "empty input": b"",
    "only a line feed": b"\n",
    "only blanks": b" \t\f\r ",
    "empty first line": b"\n1 1\n10 7\n4 5\n",
    "one word": b"1\n10 7\n4 5\n",
    "three words": b"1 1 1\n10 7\n4 5\n",
    "three words, the third no number": b"1 1 x\n10 7\n4 5\n",
    "m no number": b"x 1\n10 7\n4 5\n",
    "k no number": b"1 x\n10 7\n4 5\n",
    "m without an echo": b". 1\n10 7\n4 5\n",
    "m minus zero": b"-0 0\n10 7\n4 5\n",
    "k minus one": b"1 -1\n10 7\n4 5\n",
    "m 0": b"0 0\n10\n",
    "m 7": b"7 7\n1\n",
    "m 255": b"255 255\n",
    "m 256": b"256 0\n",
    "k 255": b"1 255\n10 7\n4 5\n",
    "k 256": b"1 256\n10 7\n4 5\n",
    "m 0 and k 256": b"0 256\n",
    "m 0 and k above": b"0 1\n",
    "m 7 and k above": b"7 8\n",
    "m 0 and three words": b"0 0 0\n",
    "k above m": b"1 2\n10 7\n4 5\n",
    "k above m, 6": b"6 7\n",
    "k above m, bad row": b"1 2\nx\n",
    "m with a point": b"1.0 1\n10 7\n4 5\n",
    "m hexadecimal": b"0x1 1\n10 7\n4 5\n",
    "m only a plus": b"+ 1\n10 7\n4 5\n",
    "m two pluses": b"++1 1\n10 7\n4 5\n",
    "m huge": b"1" * 5000 + b" 1\n10 7\n4 5\n",
    "m 2^64 + 1": b"18446744073709551617 1\n10 7\n4 5\n",
    "byte order mark": b"\xef\xbb\xbf1 1\n10 7\n4 5\n",
    "Unicode digits in the first line": "\u0661 1\n10 7\n4 5\n".encode(),
    "no-break space in the first line": "1\u00a01\n10 7\n4 5\n".encode(),
    "NUL in the first line": b"1\0 1\n10 7\n4 5\n",
    # Number of entries and rows
    "first line only": b"1 1",
    "first line only, ended": b"1 1\n",
    "row missing": b"1 1\n10 7\n",
    "row missing, not ended": b"1 1\n10 7",
    "row missing, blank": b"1 1\n10 7\n  ",
    "last of many rows missing": FOUR[: FOUR.rindex(b"13")],
    "empty line between rows": b"1 1\n10 7\n\n4 5\n",
    "empty line before rows": b"1 1\n\n10 7\n4 5\n",
    "too few": b"1 1\n10 7\n4\n",
    "too many": b"1 1\n10 7 3\n4 5\n",
    "too many, the surplus no height": b"1 1\n10 7 x\n4 5\n",
    "too many, the surplus a wrong height": b"1 1\n10 7 9000\n4 5\n",
    "too many, the surplus without an echo": b"1 1\n10 7 .\n4 5\n",
    "too many, before it no height": b"1 1\n10 x 3\n4 5\n",
    "too many, before it a wrong height": b"1 1\n9000 7 3\n4 5\n",
    "too few, no height": b"1 1\nx\n4 5\n",
    "too few, wrong height": b"1 1\n8192\n4 5\n",
    "two rows in one": b"1 1\n10 7 4 5\n",
    "too few in row 0, no height in row 1": b"1 1\n10\nx y\n",
    "wrong height in row 0, too many in row 1": b"1 1\n1 9999\n1 2 3\n",
    "surplus row": b"1 1\n10 7\n4 5\n1 2\n",
    "surplus word": b"1 1\n10 7\n4 5\n\n\r\n x",
    "surplus word without an echo": b"1 1\n10 7\n4 5\n.\n",
    "surplus row, fault before it": b"1 1\n10 7\n4 x\n1 2\n",
    "surplus NUL": b"1 1\n10 7\n4 5\n\0",
    "surplus vertical tab": b"1 1\n10 7\n4 5\n\v\n",
    "surplus no-break space": "1 1\n10 7\n4 5\n\n\u00a0\n".encode(),
    "surplus at line 1004": b"1 1\n10 7\n4 5\n" + b"\n" * 1000 + b"1",
    # Heights
    "wrong height, then no height": b"1 1\n9000 x\n4 5\n",
    "no height, then wrong height": b"1 1\nx 9000\n4 5\n",
    "other line separators": "1 1\n10 7\u2028\n4 5\n".encode(),
    "next line character": "1 1\n10\u00857\n4 5\n".encode(),
    "control characters as blanks": b"1 1\n10\x1c7\n4 5\n",
    "vertical tab as a blank": b"1 1\n10\v7\n4 5\n",
    # Not UTF-8
    "bad byte in the first line": b"\xff1 1\n10 7\n4 5\n",
    "bad byte in a row": b"1 1\n10 \x807\n4 5\n",
    "bad byte behind a bad first line": b"x y z\n10 7\n4 \xfe\n",
    "bad byte behind the last row": b"1 1\n10 7\n4 5\n\n\n\xc3",
    "bad byte behind a surplus row": b"1 1\n10 7\n4 5\n1 2\n\xc3\n",
    "two bad bytes": b"1 1\n10 \xff\n4 \xff\n",
    "character cut off by a line feed": b"1 1\n10 \xe2\x82\n4 5\n",
    "character cut off by the end": b"1 1\n10 7\n4 5\n\xf0\x9f\x98",
    "character written too long": b"1 1\n10 7\n4 \xc0\x8a\n",
    "half of a pair": b"1 1\n\xed\xa0\x80 7\n4 5\n",
    "beyond the last character": b"1 1\n10 7\n\xf4\x90\x80\x80 5\n",
    "bad byte behind good characters": "1 1\n\u20ac\U0001f600\n".encode() + b"\xff\n",
}

# Single words in the place of a height, here the last one of the last row.
PLACED = ("8191", "8192", "-8192", "-8193", "32768", "65536", "2147483647", "2147483648", "-2147483648", "-2147483649",
          "4294967296", "18446744073709551616", "9" * 5000, "-" + "9" * 5000, "+", "-", "--1", "++1", "+-1", "-+1",
          "1-", "1+", "1_000", "1,000", "1.0", "1.", ".1", "..", "-.", "+.", "1e3", "0x10", "x", "10\0", "\0",
          "\u0663", "1\u0663", "\uff11", "\u22121", "\u00b2", "\ufeff1", "1\u00a0", "\u3002", "e\u0301")

def all_cases() -> dict[str, bytes]:
    """All inputs by name, the same ones in every run."""
    cases = dict(CASES)
    for word in PLACED:
        cases[f"word {ascii(word[:30])}"] = f"1 1\n10 7\n4 {word}\n".encode()
    dice = random.Random(16)
    for m in range(1, 7):
        for k in range(m + 1):
            cases[f"random, m {m}, k {k}"] = random_stack(dice, m, k)
    return cases

def random_stack(dice: random.Random, m: int, k: int) -> bytes:
    """A good stack with heights from a random range, some of them without an echo."""
    reach = dice.choice((1, 30, 1000, 8191))
    lines = [f"{m} {k}"]
    for _ in range(2**m):
        row = [str(dice.choice((dice.randint(-reach - 1, reach), reach, -reach - 1))) for _ in range(2**m)]
        lines.append(" ".join("." if dice.randrange(20) == 0 else word for word in row))
    return ("\n".join(lines) + "\n").encode()

def differences(program: str, data: bytes) -> list[str]:
    """In what the program and the reference differ on an input."""
    try:
        done = subprocess.run([program], input=data, capture_output=True, timeout=SECONDS)
    except subprocess.TimeoutExpired:
        return [f"no end after {SECONDS} seconds"]
    except OSError as error:
        return [f"cannot be run: {error.strerror}"]
    got = (done.stdout, done.stderr, done.returncode)
    names = ("standard output", "standard error", "status")
    return [f"{name} is {short(a)}, wanted {short(b)}" for name, a, b in zip(names, got, survey.run(data)) if a != b]

def short(value: object) -> str:
    """A value in at most some 100 characters."""
    text = repr(value)
    return text if len(text) <= 100 else text[:97] + "..."

def main(arguments: list[str]) -> int:
    """The command."""
    if len(arguments) != 1:
        print("usage: python3 reference/faults.py PROGRAM", file=sys.stderr)
        return 2
    program = os.path.abspath(arguments[0])
    failed = False
    for name, data in all_cases().items():
        for difference in differences(program, data):
            print(f"{name}: {difference}")
            failed = True
    return 1 if failed else 0

if __name__ == "__main__":
    sys.exit(main(sys.argv[1:]))
