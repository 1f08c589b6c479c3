"""What tests have in common that compare many answers."""
import re
import unittest


class Comparing(unittest.TestCase):
    """A test that compares many answers. It goes on after a difference, and fails at its end, with the first of them and
    how many there are."""

    SHOWN = 20

    def setUp(self):
        self.compared, self.differences = 0, []
        self.addCleanup(self.fail_on_differences)

    def same(self, said, wanted, *what):
        """Asks that an answer is the one that is wanted; the words after it say of what. Returns whether it is."""
        self.compared += 1
        if said != wanted:
            self.differ(f"{' '.join(map(shown, what))}: {short(said)}, not {short(wanted)}")
        return said == wanted

    def differ(self, what):
        self.differences.append(what)

    def at_least(self, count, wanted, what):
        """Asks that a test had enough to compare."""
        if count < wanted:
            self.differ(f"{what}: {count}, and at least {wanted} are wanted")

    def fail_on_differences(self):
        if self.differences:
            more = len(self.differences) - self.SHOWN
            self.fail("\n".join([f"{len(self.differences)} of {self.compared} differ", *self.differences[: self.SHOWN],
                                 *([f".. and {more} more"] if more > 0 else [])]))


OCTETS = bytes, bytearray, memoryview
# One octet many times, in hexadecimal with blanks between octets.
MANY = re.compile(r"(..)(?: \1){15,}")


def shown(word):
    """What a message says of what was compared: a word as it is, and octets as they are shown elsewhere."""
    return short(word) if isinstance(word, (*OCTETS, dict)) else cut(str(word), 1000)


def short(value, most=600):
    """A value as a message shows it: octets in hexadecimal, 64 equal ones as [64*ee], also in a tuple or a dict, and
    what is long cut short."""
    if isinstance(value, OCTETS):
        text = MANY.sub(lambda many: f"[{len(many[0]) // 3 + 1}*{many[1]}]", value.hex(" ")).replace(" ", "")
    elif type(value) is tuple:
        text = f"({', '.join(map(short, value))})"
    elif type(value) is dict:
        text = f"{{{', '.join(f'{name}: {short(it, 40)}' for name, it in value.items())}}}"
    else:
        text = repr(value)
    return cut(text, most)


def cut(text, most):
    return text if len(text) <= most else f"{text[:most]}.. ({len(text)} characters)"
