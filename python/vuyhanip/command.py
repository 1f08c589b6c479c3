"""The words of the command, and what each verb prints."""
import argparse
import calendar
import errno
import functools
import io
import json
import os
import sys
import time
from typing import Callable, Dict, List, Mapping, NamedTuple, Optional, Sequence

from . import __version__, der, library, passwords, tool
from .checking import NORMAL, REFUSED, Answer, NoKind, check, judge, octet_of, unreadable, worst
from .extracting import Nothing, extract
from .files import LIMITS, STANDARD_INPUT, Limits, NoPem, TooMany, all_of, converted, given, read
from .findings import lines
from .judging import Terms, certificates_in, pem
from .page import page
from .rewriting import KEEPING, rewritten
from .running import Line, Progress, coloured, over
from .showing import show, table
from .trees import of_dertree, own_lines
from .values import file_name, printable, seen
from .verifying import verify
from .writing import mode_like, write

EXIT = "exit status: the worst of 0 (normal), 3 (accepted, not normal), 1 (refused or not read), 2 (wrong words)"
VERIFY_EXIT = (
    "exit status: the worst of 0 (right, and the certificate judged; a MAC right), 4 (right, and the certificate\n"
    "not judged, or a program not compared), 1 (wrong, weak, refused or not checked), 2 (wrong words)"
)


# How many of the signatures that a rewriting would break are named.
MOST_NAMED = 3
# What work on a file may raise, of which why has a sentence.
FAULTS = (OSError, MemoryError, ValueError, IndexError, OverflowError, RecursionError, ImportError)


class Said(NamedTuple):
    """What a verb says of one file: lines, or fields, and what goes to standard error."""

    lines: List[Line]
    fields: Mapping[str, object]
    status: int
    complaint: str = ""


def complain(name: str, said: str) -> None:
    """Says on standard error why a file isn't read."""
    print(f"{file_name(name)}: {said}", file=sys.stderr)


def why(fault: BaseException) -> str:
    """What is said of a fault: a sentence of this package or of the system, and none of Python's."""
    if isinstance(fault, (NoPem, der.Refused)):
        return f"refused: {fault}"
    if isinstance(fault, (TooMany, ImportError)):
        return str(fault)
    if isinstance(fault, MemoryError):
        return "no memory"
    if isinstance(fault, OSError) and fault.strerror:
        return fault.strerror
    return "not read, since it isn't as its type has it"


def loaded() -> der.Library:
    """The library. Raises OSError where it isn't there, and ImportError where it is of another version, or lacks
    calls."""
    try:
        return library()
    except OSError:
        raise OSError(errno.ELIBACC, "the library isn't there; VUYHANIP_LIBRARY names another", "vuyhanip") from None


def print_all(names: Sequence[str], job: Callable[[str], Said], asked: argparse.Namespace) -> int:
    """Prints what a job says of each file, in their order, and returns the exit status."""
    progress, statuses = Progress(len(names)), []
    limited: Callable[[str], Said] = functools.partial(_limited, LIMITS.get(), job)
    for name, said in zip(names, over(names, limited, asked.j)):
        progress.step()
        if said.complaint or sys.stdout.isatty():
            progress.clear()
        if said.complaint:
            complain(name, said.complaint)
        if asked.json:
            print(json.dumps(said.fields))
        for line in said.lines if not asked.json else ():
            print(coloured(line, sys.stdout))
        statuses.append(said.status)
    progress.clear()
    return worst(statuses)


def _limited(limits: Limits, job: Callable[[str], Said], name: str) -> Said:
    """A job, in a process that keeps these limits."""
    LIMITS.set(limits)
    return job(name)


# Each verb's work on one file


def said_of(answer: Answer, tells_more: bool) -> Said:
    """The line of a check, and of the kinds that were tried before."""
    lines_of = [Line(f"{file_name(answer.file)}: ", answer.line)] if answer.line else []
    if tells_more:
        lines_of += [Line("", f"  not {it}") for it in answer.tried]
    return Said(lines_of, dict(answer.fields), answer.status, answer.complaint)


def check_one(kind: Optional[str], strict: bool, tells_more: bool, name: str) -> Said:
    """The verb check, of one file."""
    return said_of(check(name, kind, strict), tells_more)


def failed(name: str, why: str) -> Said:
    """What is said of a file that isn't read."""
    return said_of(unreadable(name, why), False)


def guarded(work: Callable[[str], Said]) -> Callable[[str], Said]:
    """Work on one file, of which a fault is told and leaves the others be."""
    return functools.partial(_guarded, work)


def _guarded(work: Callable[[str], Said], name: str) -> Said:
    try:
        return work(name)
    except (NoPem, der.Refused) as fault:
        return Said([Line(f"{file_name(name)}: ", why(fault))], {"file": name, "error": str(fault)}, REFUSED)
    except FAULTS as fault:
        return failed(name, why(fault))


def show_one(kind: Optional[str], strict: bool, name: str) -> Said:
    """The verb show, of one file."""
    said = show(read(name), kind, strict)
    head = Line(f"{file_name(name)}: ", said.refused or said.title)
    fields = {"file": name, "title": said.title, "refused": said.refused, "rows": [list(it) for it in said.rows]}
    return Said([head, *map(Line, table(said.rows))], fields, said.status)


def verify_one(terms: Terms, name: str) -> Said:
    """The verb verify, of one file."""
    findings = verify(read(name), terms)
    fields = {"file": name, "findings": [it.fields for it in findings]}
    return Said(lines(findings, f"{file_name(name)}: "), fields, worst([it.status for it in findings]))


def extract_one(folder: str, strict: bool, name: str) -> Said:
    """The verb extract, of one file."""
    try:
        paths, left = extract(read(name), folder, strict)
    except FileExistsError as fault:
        return failed(name, f"{printable(str(fault.filename))} is there already")
    except Nothing as fault:
        return Said([Line(f"{file_name(name)}: ", str(fault))], {"file": name, "error": str(fault)}, REFUSED)
    complaint = f"left in the file: {', '.join(left)}" if left else ""
    written = [Line(file_name(it)) for it in paths]
    return Said(written, {"file": name, "written": paths, "left": left}, NORMAL, complaint)


# Verbs that write a file


def to_der(asked: argparse.Namespace) -> int:
    """The verb to-der."""
    it = given(read(asked.file), False)
    made = converted(it)
    if made is None:
        library().from_ber(it.octets)
    octets = (made or it).octets
    write(octets, asked.o, asked.overwrite, mode_like(asked.file, judge(octets, None, True)))
    return NORMAL


def rewrite(asked: argparse.Namespace) -> int:
    """The verb rewrite."""
    said = judge(read(asked.file), asked.kind, asked.strict, KEEPING)
    if isinstance(said, NoKind):
        return refuse(asked.file, said)
    made = rewritten(said)
    for names, is_asked, word in (
        (made.macs, asked.break_mac, "--break-mac"),
        (made.signatures, asked.break_signature, "--break-signature"),
    ):
        if names and not is_asked:
            covered = ", ".join(names[:MOST_NAMED])
            more = f" and {len(names) - MOST_NAMED} more" if len(names) > MOST_NAMED else ""
            said_of_it = f"not written, as it would change what is covered by {covered}{more}; {word} allows it"
            complain(asked.file, said_of_it)
            return REFUSED
    write(made.octets, asked.o, asked.overwrite, mode_like(asked.file, said))
    if made.keeps_ber:
        complain(asked.file, "the contents stay in BER, as the MAC covers them")
    return NORMAL


def refuse(name: str, said: NoKind) -> int:
    """Says on standard error that a file is refused."""
    complain(name, said.line)
    return REFUSED


def tree(asked: argparse.Namespace) -> int:
    """The verb tree."""
    data = given(read(asked.file), asked.strict).octets
    said = judge(data, asked.kind, True)
    kind = said.furthest.kind if isinstance(said, NoKind) else said.kind
    made = of_dertree(data, kind)
    for line in made if made is not None else map(str, own_lines(data, octet_of(said))):
        print(seen(line))
    if made is None:
        print(said)
    if isinstance(said, NoKind):
        return REFUSED
    return said.status


def page_of(asked: argparse.Namespace) -> int:
    """The verb page."""
    made = page(asked.file, read(asked.file), asked.kind, asked.strict)
    mode = None if made.of is None else mode_like(asked.file, made.of)
    write(made.text.encode("utf-8", "backslashreplace"), asked.o, asked.overwrite, mode)
    return REFUSED if made.of is None or isinstance(made.of, NoKind) else made.of.status


def password_of(asked: argparse.Namespace) -> Optional[str]:
    """The password of a store: the first line of a file, or what is typed where a terminal asks. None without one."""
    if asked.password_file is not None:
        return passwords.in_file(asked.password_file)
    return passwords.typed() if asked.ask_password else None


# Verbs over many files


def checks(asked: argparse.Namespace) -> int:
    """The verb check."""
    job = functools.partial(check_one, asked.kind, asked.strict, asked.verbose)
    return print_all(asked.files, guarded(job), asked)


def shows(asked: argparse.Namespace) -> int:
    """The verb show."""
    return print_all(asked.files, guarded(functools.partial(show_one, asked.kind, asked.strict)), asked)


def verifies(asked: argparse.Namespace) -> int:
    """The verb verify. Raises OSError where folders have no file, of which nothing would be wrong."""
    if not asked.files:
        raise OSError(errno.ENOENT, "no file to verify", "vuyhanip")
    terms = Terms(
        None if asked.content is None else read(asked.content),
        tuple(it for name in asked.certificate for it in certificates_of(name)),
        None if asked.ca is None else anchors_of(read(asked.ca)),
        asked.purpose,
        asked.at,
        asked.allow_weak,
        password_of(asked),
        asked.strict,
    )
    with tool.ending_in_order():
        return print_all(asked.files, guarded(functools.partial(verify_one, terms)), asked)


def anchors_of(data: bytes) -> bytes:
    """What is trusted, in PEM: a file that is one certificate in DER becomes that."""
    return pem((data,)) if data[:1] == b"\x30" else data


def certificates_of(name: str) -> Sequence[bytes]:
    """The certificates in a file, of PEM or one of DER. Raises OSError, and NoPem."""
    data = read(name)
    found = certificates_in(data) or ((data,) if data[:1] == b"\x30" else ())
    if not found:
        raise NoPem(f"no certificate in {printable(name)}")
    return found


def extracts(asked: argparse.Namespace) -> int:
    """The verb extract."""
    asked.j = 1
    return print_all([asked.file], guarded(functools.partial(extract_one, asked.into, asked.strict)), asked)


def lists_kinds(_: argparse.Namespace) -> int:
    """The verb kinds."""
    print("\n".join(loaded().kinds()))
    return NORMAL


class Verb(NamedTuple):
    """A verb of the command."""

    work: Callable[[argparse.Namespace], int]
    help: str
    # whether it takes many files, and whether it writes one
    is_many: bool
    writes: bool
    example: str


VERBS: Dict[str, Verb] = {
    "check": Verb(
        checks,
        "say of each file which kind it is, and whether it is normal",
        True,
        False,
        "vuyhanip check store.p12 signed.p7s\nvuyhanip check --kind rawpfx -j 4 --json *.p12",
    ),
    "show": Verb(shows, "show what each file holds", True, False, "vuyhanip show store.p12"),
    "extract": Verb(
        extracts,
        "write the certificates, the keys and the content of a file into a folder",
        False,
        False,
        "vuyhanip extract signed.p7s --into parts",
    ),
    "to-der": Verb(to_der, "write the DER of a file in PEM or BER", False, True, "vuyhanip to-der f.pem > f.der"),
    "rewrite": Verb(
        rewrite, "write the normal encoding of a file", False, True, "vuyhanip rewrite --kind rawpfx in.p12 -o out.p12"
    ),
    "tree": Verb(tree, "list the elements of a file, as dertree does", False, False, "vuyhanip tree store.p12"),
    "verify": Verb(
        verifies,
        "check the signatures of signed files and the MACs of stores, by openssl",
        True,
        False,
        "vuyhanip verify --ca root.pem signed.p7s\nvuyhanip verify --content data detached.p7s\n"
        "vuyhanip verify --password-file password store.p12",
    ),
    "page": Verb(
        page_of, "write one page of HTML, the elements beside the octets", False, True, "vuyhanip page f.p12 -o f.html"
    ),
    "kinds": Verb(lists_kinds, "list the kinds that --kind takes", False, False, "vuyhanip kinds"),
}
# The verb that reads no file.
KINDS_VERB = "kinds"
# Verbs that name no kind: what they find decides.
WITHOUT_KIND = ("extract", "to-der", "verify")


def kind_word(text: str) -> str:
    """A word that is a kind's."""
    kinds = loaded().kinds()
    if text.lower() in kinds and text not in kinds:
        raise argparse.ArgumentTypeError(f"{printable(text)} is no kind, but {text.lower()} is one")
    if text not in kinds:
        raise argparse.ArgumentTypeError(f"{printable(text)} is no kind; vuyhanip kinds lists them")
    return text


def moment(text: str) -> int:
    """A time as seconds since 1970."""
    try:
        if text.isascii() and text.isdecimal():
            return int(text)
        return calendar.timegm(time.strptime(text, "%Y-%m-%dT%H:%M:%SZ"))
    except ValueError:
        raise argparse.ArgumentTypeError(f"{text} is no time, as 2026-11-29T00:00:00Z or seconds since 1970") from None


def purpose_word(text: str) -> str:
    """A word that may be a purpose that openssl knows."""
    if not (text.isascii() and text.isalnum()):
        raise argparse.ArgumentTypeError(f"{text} is no purpose: openssl cms -help says more")
    return text


def at_least_one(text: str) -> int:
    """A number of processes."""
    if not text.isdecimal() or int(text) < 1:
        raise argparse.ArgumentTypeError(f"{text} is no number of processes")
    return int(text)


def count(text: str) -> int:
    """A number that bounds something."""
    if not text.isdecimal():
        raise argparse.ArgumentTypeError(f"{text} is no number")
    return int(text)


def add_reading(words: argparse.ArgumentParser, is_many: bool) -> None:
    """The words of each verb that say what is read."""
    usual = Limits()
    words.add_argument(
        "--most-octets", type=count, default=usual.octets, metavar="N", help=f"read no file longer than {usual.octets}"
    )
    words.add_argument(
        "--most-iterations",
        type=count,
        default=usual.iterations,
        metavar="N",
        help=f"of a file take no more iterations to derive keys, in sum, than {usual.iterations}",
    )
    if is_many:
        words.add_argument("-r", "--recursive", action="store_true", help="of a folder read all files under it")


def add_verb(name: str, verb: Verb, into: "argparse._SubParsersAction[argparse.ArgumentParser]") -> None:
    """The words of a verb."""
    shape, status = argparse.RawDescriptionHelpFormatter, VERIFY_EXIT if name == "verify" else EXIT
    epilog = f"example:\n  {verb.example}\n\n{status}"
    epilog = epilog.replace("\nvuyhanip", "\n  vuyhanip")
    words = into.add_parser(name, help=verb.help, description=verb.help, epilog=epilog, formatter_class=shape)
    words.set_defaults(work=verb.work, json=False, kind=None, strict=False, recursive=False)
    if name == KINDS_VERB:
        return
    if name not in WITHOUT_KIND:
        words.add_argument("--kind", type=kind_word, help="the kind, as pfx; without it some are tried")
    if name != "to-der":
        words.add_argument("--strict", action="store_true", help="take no PEM and no BER")
    if verb.is_many:
        words.add_argument("files", nargs="+", metavar="FILE", help="a file, or - for standard input")
        words.add_argument("-j", type=at_least_one, default=1, metavar="N", help="work in N processes")
    else:
        words.add_argument("file", metavar="FILE", help="a file, or - for standard input")
    if verb.is_many or name == "extract":
        words.add_argument("--json", action="store_true", help="a line of JSON for each file")
    add_reading(words, verb.is_many)
    if verb.writes:
        words.add_argument("-o", metavar="OUT", help="write there, where no file is, and not to standard output")
        words.add_argument("--overwrite", action="store_true", help="of -o: also where a file is, in its place")
    if name == "rewrite":
        words.add_argument("--break-mac", action="store_true", help="also where the MAC becomes wrong")
        words.add_argument("--break-signature", action="store_true", help="also where a signature becomes wrong")
    if name == "check":
        words.add_argument("-v", "--verbose", action="store_true", help="say why the kinds tried before were refused")
    if name == "extract":
        words.add_argument("--into", required=True, metavar="FOLDER", help="where to; nothing there is overwritten")
    if name == "verify":
        add_terms(words)


class Once(argparse.Action):
    """A word that is given once at most, so that the name of a file, as --ca=other.pem, takes the place of none."""

    def __call__(
        self,
        parser: argparse.ArgumentParser,
        namespace: argparse.Namespace,
        values: object,
        option_string: Optional[str] = None,
    ) -> None:
        """Keeps what is given."""
        if getattr(namespace, self.dest) is not None:
            raise argparse.ArgumentError(self, "given more than once")
        setattr(namespace, self.dest, values)


def add_terms(words: argparse.ArgumentParser) -> None:
    """The words of verify alone."""
    once = functools.partial(words.add_argument, action=Once)
    once("--content", metavar="FILE", help="the content of a detached signature or of a time stamp")
    words.add_argument(
        "--certificate", metavar="FILE", action="append", default=[], help="certificates beside those of files"
    )
    once("--ca", metavar="FILE", help="judge the certificates: trust those of FILE, and no others")
    once("--purpose", type=purpose_word, metavar="P", help="what for: smimesign is the default")
    once("--at", type=moment, metavar="TIME", help="when, as 2026-11-29T00:00:00Z or in seconds")
    words.add_argument("--allow-weak", action="store_true", help="take MD5, SHA-1, DSA and RSA under 2,048 bits")
    once("--password-file", metavar="FILE", help="its first line is the password of a store")
    words.add_argument("--ask-password", action="store_true", help="ask for the password of a store")


@functools.lru_cache(maxsize=None)
def parser() -> argparse.ArgumentParser:
    """The words of the command."""
    made = argparse.ArgumentParser(
        prog="vuyhanip",
        description="Checks, shows and verifies DER: PKCS #12, PKCS #7 and CMS, Authenticode, revocation lists.",
        epilog="vuyhanip VERB --help says more, with an example.",
    )
    made.add_argument("--version", action="version", version=f"vuyhanip {__version__}")
    verbs = made.add_subparsers(dest="verb", metavar="VERB", required=True)
    for name, verb in VERBS.items():
        add_verb(name, verb, verbs)
    return made


def parsed(words: Optional[Sequence[str]]) -> argparse.Namespace:
    """What the words ask for. Standard input is read once, so it is named once at most."""
    made = parser()
    asked = made.parse_args(words)
    named = [*getattr(asked, "files", ()), *getattr(asked, "certificate", ())]
    named += (getattr(asked, it, None) for it in ("file", "content", "ca", "password_file"))
    if sum(it in STANDARD_INPUT for it in named) > 1:
        made.error("standard input is named more than once, and can be read once")
    return asked


def run(words: Optional[Sequence[str]]) -> int:
    """The work that the words ask for, and its exit status."""
    name = "vuyhanip"
    try:
        asked = parsed(words)
        loaded()
        name = getattr(asked, "file", name)
        LIMITS.set(Limits(getattr(asked, "most_octets", 0), getattr(asked, "most_iterations", 0)))
        if asked.recursive:
            asked.files = list(all_of(asked.files))
        return int(asked.work(asked))
    except BrokenPipeError:
        raise
    except FAULTS as fault:
        complain(str(getattr(fault, "filename", None) or name), why(fault))
    return REFUSED


def main(words: Optional[Sequence[str]] = None) -> int:
    """Runs the command, and returns its exit status."""
    for stream in (sys.stdout, sys.stderr):
        if isinstance(stream, io.TextIOWrapper):
            stream.reconfigure(errors="backslashreplace")
    if sys.stdout is None:
        complain("standard output", os.strerror(errno.EBADF))
        return REFUSED
    try:
        status = run(words)
        sys.stdout.flush()
        return status
    except BrokenPipeError:
        # no one reads on: what is left of the output goes nowhere
        os.dup2(os.open(os.devnull, os.O_WRONLY), sys.stdout.fileno())
        return REFUSED
    except KeyboardInterrupt:
        return 130
