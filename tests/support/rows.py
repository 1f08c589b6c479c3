"""The rows of worked examples: of example_rows, and of ber_trial."""
from typing import NamedTuple

from .built import TOP


class Row(NamedTuple):
    """A row of crates/example_rows/stdin: its type, the words after that, the input as it is spelt, what a check says,
    and further columns."""

    type: str
    words: list
    spelt: str
    said: str
    more: list

    def octets(self):
        return octets(self.spelt)


def octets(column):
    """The octets of a column: 30 00, 02.01.07*5000 for three octets so often, - for none."""
    found = b""
    for token in column.split():
        digits, _, times = token.partition("*")
        if digits != "-":
            found += bytes.fromhex(digits.replace(".", "")) * int(times or 1)
    return found


def examples():
    """The rows of example_rows."""
    found = []
    for line in (TOP / "crates/example_rows/stdin").read_text("utf-8").splitlines():
        columns = [column.strip() for column in line.split("|")]
        if not line.startswith("#") and len(columns) > 2:
            kind, *words = columns[0].split()
            found.append(Row(kind, words, *columns[1:3], columns[3:]))
    return found


def ber():
    """The inputs of ber_trial."""
    lines = (TOP / "crates/ber_trial/stdin").read_text("utf-8").splitlines()
    return [octets(line) for line in lines if not line.startswith("#")]
