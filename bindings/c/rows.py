#!/usr/bin/env python3
"""Runs each stored row of `run`, `check` and `upgrade` that asks for no workers through PROGRAM (bindings/c/jobs.c): rows.py PROGRAM ROWS"""
import re, subprocess, sys


def ends(text):
    """A semicolon is a line end, and one space behind it means nothing."""
    return re.sub(r"; ?", "\n", text)


def whole(text):
    """A text of a row, written out: {N:PIECE} is PIECE N times, and # in PIECE counts from 0."""
    parts = re.split(r"\{(\d+):([^}]*)\}", text)
    written = ends(parts[0])
    for count, piece, rest in zip(parts[1::3], parts[2::3], parts[3::3]):
        written += "".join(ends(piece.replace("#", str(k))) for k in range(int(count))) + ends(rest)
    return (written if not written or written.endswith("\n") else written + "\n").encode()


def main(program, rows):
    tried = wrong = 0
    with open(rows, encoding="utf-8", newline="\n") as file:
        for line in file:
            if not line.strip() or line.startswith("--"):
                continue
            row = line.rstrip("\n").split(" | ", 3)
            asked = re.fullmatch(r"(run|check|upgrade)(?: --limit (\d+))?", row[0])
            if not asked or row[2] == "5":
                continue
            text, status, output = row[1:]
            limit = asked[2] or "1000000"
            ran = subprocess.run([program, asked[1], limit], input=whole(text), capture_output=True, check=False)
            want = whole(output)
            tried += 1
            if ran.returncode != int(status) or ran.stdout + ran.stderr != want:
                wrong += 1
                if wrong < 5:
                    print(row[0], "|", text[:200], "|", ran.returncode, (ran.stdout + ran.stderr)[:200], want[:200])
    print(f"{tried} rows, {wrong} wrong")
    return wrong != 0


if __name__ == "__main__":
    sys.exit(main(*sys.argv[1:]))
