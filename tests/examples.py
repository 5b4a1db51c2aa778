"""Compares examples with bindings/examples/expected.py on 100 random pairs of tables, and on tables with an invalid line:
`examples.py COMMAND..`, where each COMMAND is a program with its arguments, as one word. The last line is 'N passed, M failed'."""
import random
import shlex
import subprocess
import sys
import tempfile
from pathlib import Path

sys.path.insert(0, str(Path(__file__).parent.parent / "bindings" / "examples"))
import expected

INVALID = [
    b"", b" 10.0.0.0/8 A", b"10.0.0.0/8  A", b"10.0.0.0/8 ", b"10.0.0.0/8", b"10.0.0.1/8 A", b"10.0.0/8 A", b"10.0.0.0.0/8 A",
    b"10.0.0.0/33 A", b"10.0.0.0/08 A", b"10.0.0.0/-1 A", b"10.0.0.0/+8 A", b"010.0.0.0/8 A", b"256.0.0.0/8 A", b"10.0.0.0/ A",
    b"10.0.0.0/255.0.0.0 A", b"10.0.0.0 A", b"A", b"10.0.0.0/8\tA", b"1..0.0/8 A",
]  # fmt: skip
passed = failed = 0


def judge(good, what):
    global passed, failed
    passed, failed = passed + good, failed + (not good)
    if not good:
        print(what)


def table():
    """Up to 12 random blocks, some of which touch, cover or repeat one another."""
    lines = []
    for _ in range(random.randrange(12)):
        length = random.choice([0, 1, 5, 6, 7, 8, 8, 9, 31, 32])
        address = random.randrange(8, 14) << 24 | random.choice([0, 0, 1 << 23, 1 << 31, 255, 256])
        address = address >> (32 - length) << (32 - length) if length else 0
        block = ".".join(str(address >> shift & 255) for shift in (24, 16, 8, 0))
        lines.append(f"{block}/{length} {random.choice(['A', 'B', 'C', 'two words', 'end '])}".encode())
    return lines


def run(commands, old, new):
    """Compares what each command prints for two tables."""
    with tempfile.TemporaryDirectory() as folder:
        names = [f"{folder}/old", f"{folder}/new"]
        for name, lines in zip(names, (old, new)):
            Path(name).write_bytes(b"".join(lines))
        try:
            wanted = "\n".join(expected.expected(*names)) + "\n", "", 0
        except expected.InvalidLine as error:
            wanted = "", f"{error}\n", 1
        for command in commands:
            ran = subprocess.run(shlex.split(command) + names, capture_output=True, text=True, timeout=20)
            judge((ran.stdout, ran.stderr, ran.returncode) == wanted, f"{command}: {old} {new}: {ran} for {wanted}")


random.seed(7)
for at in range(100):
    ends = random.choice([b"\n", b"\r\n"])
    old, new = ([line + ends for line in table()] for _ in range(2))
    for lines in (old, new):
        if at % 5 == 0:
            lines.insert(random.randrange(len(lines) + 1), b"# " + random.choice([b"10.0.0.0/8 A", b"text"]) + ends)
        if at % 7 == 0 and lines:
            lines[-1] = lines[-1].rstrip(b"\r\n")
    run(sys.argv[1:], old, new)
for line in INVALID:
    run(sys.argv[1:], [b"10.0.0.0/8 A\n"], [b"11.0.0.0/8 B\r\n", line + random.choice([b"\n", b"\r\n"]), b"12.0.0.0/8 C\n"])
print(f"{passed} passed, {failed} failed")
sys.exit(failed != 0)
