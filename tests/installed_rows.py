"""Compares what the installed package vuyhanip and derbox say of inputs with the rows of crates/example_rows/stdin.

Usage: python3 installed_rows.py DERBOX ROWS
It takes each row whose type is a kind, but those with a limit of nesting levels, and prints how many there are.
"""
import subprocess
import sys

import vuyhanip


def octets(column):
    """The octets of a column of a row: 30 00, 02.01.07*5000, - for none."""
    found = b""
    for token in column.split():
        digits, _, times = token.partition("*")
        if digits != "-":
            found += bytes.fromhex(digits.replace(".", "")) * int(times or 1)
    return found


def rows(path, kinds):
    """The kind, the input, what a check says, and the place where it is said, of each row."""
    with open(path, encoding="utf-8") as lines:
        for line in lines:
            words, *columns = [it.strip() for it in line.split("|")]
            if not line.startswith("#") and len(columns) > 1 and "within" not in words and words.split()[0] in kinds:
                said, _, place = columns[1].partition(" at ")
                yield words.split()[0], octets(columns[0]), said, place


def answer(library, kind, text):
    """What the library says of an input, in derbox's words, and the place."""
    try:
        verdict = library.check(kind, text)
    except vuyhanip.Refused as refused:
        return f"refused: {refused.reason}", str(refused.place)
    if verdict.is_normal:
        return f"normal {verdict.length}", ""
    return f"loose {len(text)} -> {verdict.length}", str(verdict.loose_end)


def main():
    if len(sys.argv) != 3:
        sys.exit("usage: installed_rows.py DERBOX ROWS")
    library, count = vuyhanip.library(), 0
    kinds = set(library.kinds())
    for kind, text, said, place in rows(sys.argv[2], kinds):
        ran = subprocess.run([sys.argv[1], "check", kind], input=text, stdout=subprocess.PIPE, check=False)
        words, where = answer(library, kind, text)
        if (ran.stdout.decode().strip(), words) != (said, said) or place not in ("", where):
            seen = f"derbox says {ran.stdout}, the library {words} at {where}, and the row {said} {place}"
            sys.exit(f"{kind}: {text.hex()}: {seen}")
        count += 1
    if count < len(kinds) or len(kinds) < 77:
        sys.exit(f"there are only {count} rows of {len(kinds)} kinds")
    print(f"{count} rows of {len(kinds)} kinds, as derbox and the package vuyhanip say")


main()
