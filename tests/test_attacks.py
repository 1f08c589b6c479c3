"""Nothing is right that shouldn't be: `vuyhanip verify` over files that nobody may call right, by classes, and over
files that are right, beside openssl's own verdict, which is asked by words of these tests. For each rule of the command
that refuses more than openssl does a removal, a line of a copy of the package changed, has files of that rule be right;
and stand-ins for openssl show that the verdict is its exit status, and that the rules refuse whatever it says. The
examples that verify signatures say yes to no file that openssl refuses.

`python3 tests/test_attacks.py table` prints how many files of each class openssl accepts and `vuyhanip verify` calls
right, and which rules refused."""
import collections
import contextlib
import functools
import importlib
import inspect
import io
import itertools
import resource
import runpy
import sys
import unittest
import warnings
from unittest import mock

from support import attacks, attacks_on_keys, attacks_on_stores, attacks_on_trust, built, good_files, signing, verdicts
from support.attacks import UNNAMED, attack
from support.attacks_on_stores import locked, store
from support.attacks_on_trust import SIGNING_CERTIFICATE, another_name
from support.cases import Comparing
from support.elements import octet_string, sequence
from support.removals import REMOVALS
from support.signing import CONTENT, OTHER, Signer, attribute, attributes_of, digest_of, put
from support.stand_in import PACKAGE, VERDICTS, changed_copy, standing_in
from support.tools import ended, needs
from vuyhanip.rules import RULES

MODULES = (attacks, attacks_on_keys, attacks_on_trust, attacks_on_stores)
# How many attacks, and good files, there are at least.
LEAST = 200
# Good files that aren't right, and why.
NOT_RIGHT = {
    "good-Ed25519.file": "openssl 3.0 verifies no Ed25519 in CMS",
    "good-an-unsigned-attribute-of-a-tag-above-30.file": "the library reads tags of one octet",
    "good-an-attribute-certificate-beside-the-signer's.file": "a certificate that isn't read may be a signer's",
}
# Good files whose certificate isn't right by --ca, and why.
IN_BER = "the signature of a certificate is over its DER (X.690, 10), and openssl looks at its octets as they are"
NOT_UNDER_A_ROOT = {
    **{f"good-{it}-{how}.file": IN_BER for it in ("all", "PEM") for how in ("of-indefinite-length", "in-segments")},
    "good-a-chain-given.file": "openssl cms takes authorities from the file alone, not from -certfile",
}
# Attacks, by the beginnings of their names, that the examples verify and openssl refuses, and why.
NOT_LOOKED_AT = {
    "content-as-": "der_signers has content of any type, and doesn't say of which",
    "content-of-another-type-as-": "der_signers has content of any type, and doesn't say of which",
    "digest-algorithms-are-": "RFC 5652, 5.1 lets digestAlgorithms lack those of signers",
    "another-certificate-is-named-": "which certificate signed attributes name isn't looked at",
    "NULL-at-the-end-of-certificates": "only the signer's certificate is looked at",
    **{f"{it}-as-": "only the signer's certificate is looked at" for it in (
        *("an-empty-SEQUENCE", "an-INTEGER", "one-that-is-cut", "one-with-more", "one-with-NULL-in-it"),
        *("one-without-its-key", "one-without-its-times", "one-of-another-type-of-time"),
    )},
    "a-key-for-RSASSA-PSS-alone-by-": "cryptography reads a key for RSASSA-PSS alone as one for any padding",
}
# The time limit of a stand-in that hangs.
SECONDS = 1.0


@functools.lru_cache(maxsize=None)
def those_of(make):
    """The files of a class."""
    return tuple(make())


def attack_classes():
    return [make for module in MODULES for make in module.CLASSES]


def fault_of(attack, package="vuyhanip", environment=()):
    """Why the verdict on an attack isn't one, or nothing."""
    said = verdicts.verdict(attack.name, attack.words, (*attack.environment, *environment), package)
    if said.is_right or said.status != 1:
        return f"status {said.status}: {said.words}"
    if attack.rule not in (None, UNNAMED) and attack.rule not in said.rules:
        return f"refused by {said.rules or 'no rule'}, not by {attack.rule}: {said.words}"
    return ""


class Attacks(Comparing):
    """No attack is right, and where openssl accepts one a rule of ours is named; by what each class asks."""

    def none_right(self, *makes):
        for make in makes:
            for attack in those_of(make):
                is_accepted, fault = verdicts.accepts(*attack.questions), fault_of(attack)
                openssls = f"openssl {'accepts' if is_accepted else 'refuses'} it"
                if fault:
                    self.differ(f"{make.__name__}, {attack.name}: {fault}; {openssls}")
                if is_accepted and attack.rule is None:
                    self.differ(f"{make.__name__}, {attack.name}: {openssls}, and no rule is named")
                self.compared += 1

    def test_content_beside_that_of_a_file_is_the_same(self):
        self.none_right(attacks.other_content)

    def test_content_of_data_is_an_octet_string(self):
        self.none_right(attacks.retagged_content)

    def test_content_of_other_types_is_signed_as_it_is(self):
        self.none_right(attacks.content_types, attacks_on_trust.indirect_data)

    def test_signed_attributes_are_no_content(self):
        self.none_right(attacks.attributes_as_content)

    def test_signed_attributes_are_those_of_the_content(self):
        self.none_right(attacks.attributes_that_are_wrong)

    def test_all_octets_of_a_file_are_judged(self):
        self.none_right(attacks.trailing, attacks.in_other_forms, attacks.no_signed_data)

    def test_all_blocks_of_pem_are_judged(self):
        self.none_right(attacks.blocks_of_pem, attacks.misread_pem)

    def test_all_signers_are_right(self):
        self.none_right(attacks.several_signers)

    def test_digests_of_a_signer_agree(self):
        self.none_right(attacks_on_keys.algorithms_that_disagree)

    def test_a_key_signs_by_an_algorithm_of_its_own(self):
        self.none_right(attacks_on_keys.keys_of_another_kind, attacks_on_keys.by_ed25519)

    def test_parameters_of_rsassa_pss_are_those_of_the_signature(self):
        self.none_right(attacks_on_keys.parameters_of_pss)

    def test_octets_of_signatures_are_those_of_the_standards(self):
        self.none_right(attacks_on_keys.lengths, attacks_on_keys.numbers_of_ecdsa, attacks_on_keys.digest_infos)

    def test_weak_signers_are_not_right(self):
        self.none_right(attacks_on_keys.weak, attacks_on_keys.exponents)

    def test_a_key_is_not_one_by_which_anyone_signs(self):
        self.none_right(attacks_on_keys.keys_of_anyone)

    def test_a_curve_has_a_name(self):
        self.none_right(attacks_on_keys.curves_without_a_name)

    def test_a_signer_has_one_certificate(self):
        self.none_right(attacks_on_trust.two_certificates, attacks_on_trust.unread_certificates)

    def test_a_signer_has_the_certificate_that_it_names(self):
        self.none_right(attacks_on_trust.named_certificates)

    def test_certificates_are_judged_by_the_roots_given_alone(self):
        self.none_right(attacks_on_trust.chains)

    def test_a_time_stamp_is_of_what_is_given_or_of_the_signature_around_it(self):
        self.none_right(attacks_on_trust.stamps, attacks_on_trust.stamps_of_signatures)

    def test_nested_signatures_are_judged_too(self):
        self.none_right(attacks_on_trust.nested)

    def test_a_store_has_a_mac_under_the_password(self):
        of_stores = attacks_on_stores
        self.none_right(of_stores.without_mac, of_stores.wrong_passwords, of_stores.changed_stores)
        self.none_right(of_stores.contents_under_another_password, of_stores.unknown_digests, of_stores.iterations)

    def test_a_file_with_a_line_after_it_is_read_and_said_so(self):
        """Where openssl accepts any octets after the file."""
        put("newline.file", Signer("rsa").file() + b"\n")
        said = verdicts.verdict("newline.file")
        self.same((said.status, "newline" in said.notes), (4, True), said.findings)

    def test_of_several_certificates_that_may_be_a_signers_none_is_said_to_be(self):
        those_of(attacks_on_trust.stamps)
        words, _ = attacks.given(CONTENT)
        said = verdicts.verdict("stamp-by-certificate-1-beside-another-of-its-serial-number.file", words)
        self.same([it["by"] for it in said.findings], [None], said.findings)

    def test_without_roots_a_certificate_is_not_judged(self):
        """One that calls itself as it likes: the exit status and JSON say so."""
        whole = signing.certify("made-up", *signing.SIGNS, of="p384", by=None, subject="/CN=Microsoft Corporation")
        put("made-up.file", Signer("p384", certificate=whole).file())
        said = verdicts.verdict("made-up.file")
        self.same((said.status, said.findings[0]["judged"]), (4, False), said.findings)
        self.same("Microsoft Corporation" in said.findings[0]["by"], True, said.findings)
        self.same(verdicts.verdict("made-up.file", ("--ca", "ca.pem")).status, 1, "under a root")

    def test_each_class_of_attacks_is_in_a_test(self):
        text, names = inspect.getsource(type(self)), []
        for make in attack_classes():
            self.same(f".{make.__name__}" in text, True, make.__name__, "is in a test")
            names += [attack.name for attack in those_of(make)]
        twice = [name for name, count in collections.Counter(names).items() if count > 1]
        self.same(twice, [], "names of several attacks")
        self.at_least(len(names), LEAST, "attacks")


class GoodFiles(Comparing):
    """Files that are right, by class, and those that aren't with a reason."""

    def judged(self, make):
        """Compares the verdicts on the files of a class with what they have to be."""
        for it in those_of(make):
            reason = NOT_RIGHT.get(it.name)
            is_uncompared = it.judged is not None and "--purpose" in it.judged
            wanted = 1 if reason else 4 if it.judged else 0
            said = verdicts.verdict(it.name, it.words)
            self.same(said.status, wanted, it.name, reason or "", said.words)
            self.same(all(finding["right"] for finding in said.findings), not reason, it.name, "right in JSON")
            if it.judged is not None:
                wanted = 1 if reason or it.name in NOT_UNDER_A_ROOT else 4 if is_uncompared else 0
                said = verdicts.verdict(it.name, (*it.words, *it.judged))
                self.same(said.status, wanted, it.name, *it.judged, said.words)
            if it.name != "good-Ed25519.file":
                self.same(verdicts.accepts(*it.questions), True, it.name, "by openssl")
        return len(those_of(make))

    def test_files_of_openssl_are_right(self):
        made = [make for make in good_files.CLASSES if make is not good_files.of_osslsigncode]
        self.at_least(sum(map(self.judged, made)), LEAST, "good files")

    @needs("osslsigncode")
    def test_signatures_of_programs_are_right(self):
        self.at_least(self.judged(good_files.of_osslsigncode), 20, "good files")

    def test_reasons_are_those_of_files(self):
        made = [make for make in good_files.CLASSES if make is not good_files.of_osslsigncode]
        names = {it.name for make in made for it in those_of(make)}
        self.same({*NOT_RIGHT, *NOT_UNDER_A_ROOT} - names, set(), "reasons of no file")
        attacked = {attack.name for make in attack_classes() for attack in those_of(make)}
        unused = {it for it in NOT_LOOKED_AT if not any(name.startswith(it) for name in attacked)}
        self.same(unused, set(), "reasons of no file")


# ---- rules


def uncompared(package, environment):
    """Why indirect data are called compared, or nothing."""
    [*_, file] = those_of(good_files.of_indirect_data)
    said = verdicts.verdict(file.name, (*file.words, *file.judged), environment, package)
    right = {"right": True, "judged": True, "compared": False}
    is_so = said.status == 4 and all(said.findings[0][name] is value for name, value in right.items())
    return "" if is_so and "isn't compared" in said.notes else f"status {said.status}: {said.findings}"


def untold(package, environment):
    """Why a counter signature isn't told, or nothing."""
    said = verdicts.verdict("good-a-counter-signature.file", (), environment, package)
    return "" if said.status == 4 and "counter signature not checked" in said.notes else f"{said.findings}"


# What is asked of a rule that refuses nothing.
OTHERWISE = {"indirect-data": uncompared, "counter-signature": untold}


def faults(rule, package, environment):
    """What is wrong of the verdicts on the files of a rule, one after another."""
    if rule in OTHERWISE:
        yield OTHERWISE[rule](package, environment)
    for make in attack_classes():
        for attack in those_of(make):
            if attack.rule == rule:
                yield fault_of(attack, package, environment.items())


class Rules(Comparing):
    """Each rule by itself, where openssl says yes to everything."""

    def setUp(self):
        super().setUp()
        those_of(good_files.of_octets_of_our_own)

    def test_each_rule_refuses_its_files_whatever_openssl_says(self):
        with standing_in(VERDICTS["succeeds"]) as it:
            for rule in RULES:
                found = list(faults(rule.name, it.package, it.environment))
                self.at_least(len(found), 1, f"files of {rule.name}")
                self.same([fault for fault in found if fault], [], rule.name)

    def test_without_a_rule_a_file_of_it_is_right(self):
        """Each removal makes the test above fail: a file is right, or what is told isn't told."""
        for removal in REMOVALS:
            change = {"file": removal.file, "old": removal.old, "new": removal.new}
            with standing_in(VERDICTS["succeeds"], **change) as it:
                if removal.rule != "public-key":
                    # by which openssl refuses some keys of other rules too
                    importlib.import_module(f"{it.package}.rules").has_right_key = bool
                found = faults(removal.rule, it.package, it.environment)
                noticed = next(filter(is_right_now(removal.rule), found), None)
            self.same(noticed is not None, True, removal.rule, removal.new, "isn't noticed")

    def test_each_rule_has_a_removal_that_fits(self):
        self.same({it.rule for it in REMOVALS}, {rule.name for rule in RULES}, "rules with a removal")
        for it in REMOVALS:
            text = (PACKAGE / it.file).read_text("utf-8")
            self.same((text.count(it.old), "\n" in it.old + it.new), (1, False), it.rule, it.old)


@functools.lru_cache(maxsize=None)
def named_twice():
    """Signers whose signed attributes name their certificate by two values, where RFC 5035, 5.4 has one."""
    value = sequence(sequence(sequence(octet_string(digest_of("sha256", another_name())))))
    one, content = attribute(SIGNING_CERTIFICATE, value), good_files.of_program()
    given, found = put("named-twice.content", content), []
    for name, those in (("values", [attribute(SIGNING_CERTIFICATE, value, value)]), ("attributes", [one, one])):
        by, rule = {"by": "rsa", "certificate": another_name()}, "signing-certificate"
        file = Signer(attributes=[*attributes_of(CONTENT), *those], **by).file()
        found.append(attack(f"its certificate is named by two {name}", file, rule))
        those = [*attributes_of(content, signing.INDIRECT_DATA), *those]
        signer = Signer(content=content, content_type=signing.INDIRECT_DATA, attributes=those, **by)
        name = f"its certificate is named by two {name}, indirect data"
        asked = (attacks.smime(attacks.of_file(name), given),)
        found.append(attack(name, signer.file(content=sequence(content)), rule, questions=asked))
    return found


class NamedTwice(Comparing):
    """The first line of the rule signing-certificate, by which openssl cms refuses such files, and smime doesn't."""

    def test_a_certificate_is_named_by_one_value(self):
        for it in named_twice():
            self.same(fault_of(it), "", it.name)
            self.same(verdicts.accepts(*it.questions), "indirect" in it.name, it.name, "by openssl")
            said = verdicts.verdict(it.name).words
            self.same("its signed attributes name more than one certificate (RFC 5035, 5.4)" in said, True, said)

    def test_without_that_line_such_a_file_is_right(self):
        old = "if len(values) > len({digest for _, digest in values}):"
        self.same((PACKAGE / "rules.py").read_text("utf-8").count(old), 1, old)
        with standing_in(VERDICTS["succeeds"], file="rules.py", old=old, new="if not case.own:") as it:
            for each in named_twice():
                self.same(fault_of(each, it.package, it.environment.items())[:8], "status 4", each.name)


def is_right_now(rule):
    """Whether a fault is that a file is right; of a rule that refuses nothing any."""
    return bool if rule in OTHERWISE else lambda fault: fault.startswith(("status 0", "status 4"))


# ---- stand-ins


@functools.lru_cache(maxsize=None)
def asked_of_stand_ins():
    """Files of each form, right and wrong: by name the words of the command and its status where openssl says yes."""
    given = ("--content", put("asked.content", CONTENT))
    content = good_files.of_program()
    indirect = Signer("rsa", content=content, content_type=signing.INDIRECT_DATA)
    sequence = attacks_on_trust.element(0x30, content)
    stamped = Signer("rsa", unsigned=attribute(signing.STAMP_TOKEN, attacks_on_trust.token(Signer("rsa").signature)))
    lock = locked("asked of a stand-in, store", store(*attacks_on_stores.PLAIN))
    found = {"asked.store": (lock.octets, lock.words, 0)}
    found["asked.right"] = Signer("rsa").file(), (), 4
    found["asked.wrong"] = Signer("rsa").file(content=signing.octet_string(OTHER)), (), 4
    found["asked.detached"] = Signer("p256").file(content=False), given, 4
    found["asked.judged"] = Signer("rsa").file(), ("--ca", "ca.pem"), 0
    found["asked.indirect"] = indirect.file(content=sequence), (), 4
    found["asked.stamp"] = attacks_on_trust.token(CONTENT), given, 4
    found["asked.stamped"] = stamped.file(), (), 4
    for name, (octets, _, _) in found.items():
        put(name, octets)
    return {name: (words, status) for name, (_, words, status) in found.items()}


class StandIns(Comparing):
    """Programs in the place of openssl."""

    def follow(self, name, files, seconds=None):
        """Compares the verdicts on files with the status of a stand-in, and asks that nothing is left of it."""
        is_yes = "succeeds" in name
        with standing_in(VERDICTS[name], seconds) as it:
            for file in files:
                words, status = asked_of_stand_ins()[file]
                said = verdicts.verdict(file, words, it.environment, it.package)
                self.same(said.status, status if is_yes else 1, file, name, said.words)
                self.same(any(finding["right"] for finding in said.findings), is_yes, file, name, "right in JSON")
                self.same(it.left(), [], file, name, "temporary files")
            self.same(it.living(), [], name, "processes")
            self.at_least(len(it.words), 1, "words of openssl")

    def test_the_verdict_is_the_exit_status(self):
        for name in VERDICTS:
            if "hangs" not in name and "gigabyte" not in name:
                self.follow(name, asked_of_stand_ins())

    def test_a_program_that_hangs_is_ended_with_its_processes(self):
        for name in VERDICTS:
            if "hangs" in name:
                self.follow(name, ["asked.right", "asked.store"], SECONDS)

    def test_a_gigabyte_of_output_is_not_kept(self):
        before = resource.getrusage(resource.RUSAGE_SELF).ru_maxrss
        for name in VERDICTS:
            if "gigabyte" in name:
                self.follow(name, ["asked.right"])
        kept = resource.getrusage(resource.RUSAGE_SELF).ru_maxrss - before
        self.same(kept < 100_000, True, f"{kept} KiB more are kept")

    def test_what_a_file_holds_is_no_argument(self):
        """No password, no name in a file, and no name of a file."""
        secrets = ["Passwort-Größe", "friendly-Büro", "subject-Büro", "named-by-the-user"]
        with standing_in(VERDICTS["succeeds"]) as it:
            for file, words in files_with_secrets(*secrets):
                said = verdicts.verdict(file, words, it.environment, it.package)
                self.same(said.status in (0, 4), True, file, said.words)
            given = "\n".join(it.words)
        self.at_least(given.count("-verify"), 2, "verdicts asked for")
        self.at_least(given.count("pkcs12"), 1, "verdicts asked for")
        for secret in secrets:
            self.same(secret in given, False, secret, "is an argument")

    def test_without_openssl_nothing_is_right(self):
        package = changed_copy()
        for file, (words, _) in asked_of_stand_ins().items():
            said = verdicts.verdict(file, words, {"PATH": "/nowhere"}, package)
            self.same((said.status, "not checked" in said.words), (1, True), file, said.words)


def files_with_secrets(password, friendly, subject, name):
    """A store and a signed file with these in them, or as their names."""
    signing.certificate("rsa")
    made = attacks_on_stores.store(*attacks_on_stores.PLAIN, "-name", friendly, password=password)
    yield put(f"{name}.p12", made), ("--password-file", attacks_on_stores.password_file(password))
    whole = signing.certify("secret", *signing.SIGNS, of="p256", subject=f"/CN={subject}", more=("-utf8",))
    yield put(f"{name}.p7s", Signer("p256", certificate=whole).file()), ()
    content = put(f"{name}.content", CONTENT)
    detached = Signer("p256", certificate=whole).file(content=False)
    yield put(f"{name}.detached", detached), ("--content", content, "--certificate", "secret.pem")


# ---- examples


@functools.lru_cache(maxsize=None)
def asked_of_examples():
    """The attacks that are signed data and whose certificates aren't judged: of each the name, the file of the content
    that is given, and whether openssl accepts it as signed data, whatever is nested in it; of those only some."""
    found = []
    for make in (make for module in MODULES[:3] for make in module.CLASSES):
        for attack in those_of(make):
            words = dict(zip(attack.words[::2], attack.words[1::2]))
            if set(words) <= {"--content"}:
                content = [words["--content"]] if words else []
                question = attacks.cms(attack.name, *(["-content", *content] if content else []))
                if attack.questions and attack.questions[0][0] == "smime":
                    question = attack.questions[0]
                found.append((attack.name, content, verdicts.accepts(question)))
    accepted = [it for it in found if it[2]]
    return [it for it in found if not it[2]] + accepted[::4]


class Examples(Comparing):
    """The programs of c/examples and python/examples, whose back end gets a key, a digest and a signature: their yes is
    one of openssl, but where it refuses a file for what they don't look at."""

    def compare(self, says_yes):
        files = asked_of_examples()
        yes = 0
        for name, content, is_accepted in files:
            if says_yes(signing.room() / name, *(signing.room() / it for it in content)):
                yes += 1
                if not is_accepted and not any(name.startswith(it) for it in NOT_LOOKED_AT):
                    self.differ(f"{name}: verified, and openssl refuses it")
            self.compared += 1
        self.at_least(len(files), LEAST, "attacks")
        self.at_least(yes, 20, "attacks that openssl alone accepts")

    def test_what_verify_c_verifies_openssl_accepts(self):
        program = built.in_c(built.TOP / "c/examples/verify.c", "-lcrypto")
        self.compare(lambda *words: ended(program, *words).returncode == 0)

    @needs("cryptography")
    def test_what_verify_py_verifies_openssl_accepts(self):
        built.use_shared()
        self.compare(lambda *words: status_of(built.TOP / "python/examples/verify.py", *words) == 0)

    @needs("cryptography")
    def test_verify_py_says_no_of_keys_that_cryptography_does_not_read(self):
        built.use_shared()
        attack = those_of(attacks_on_keys.curves_without_a_name)[0]
        self.same(status_of(built.TOP / "python/examples/verify.py", signing.room() / attack.name), 1, attack.name)


def status_of(script, *words):
    """The exit status of a script, which runs in this process."""
    with mock.patch.object(sys, "argv", [str(script), *map(str, words)]), warnings.catch_warnings():
        warnings.simplefilter("ignore")  # of a file that nothing closes
        with contextlib.redirect_stdout(io.StringIO()):
            try:
                runpy.run_path(str(script))
            except SystemExit as ended_with:
                return int(ended_with.code)
            except ValueError:  # what the library refuses, or cryptography
                return 1
    return 0


# ---- a table


def table():
    """Prints what is said of the files of each class."""
    for title, makes in (("attacks", attack_classes()), ("good files", good_files.CLASSES)):
        total = collections.Counter()
        print(f"{title}: class, files, accepted by openssl, right by vuyhanip, refused by")
        for make in makes:
            said = [(it, verdicts.verdict(it.name, it.words, getattr(it, "environment", ()))) for it in those_of(make)]
            accepted = sum(verdicts.accepts(*it.questions) for it, _ in said)
            right = sum(it.is_right for _, it in said)
            rules = collections.Counter(itertools.chain.from_iterable(it.rules for _, it in said))
            print(f"  {make.__name__}, {len(said)}, {accepted}, {right}, {dict(rules)}")
            total.update(files=len(said), accepted=accepted, right=right)
        print(f"  all: {dict(total)}")


if __name__ == "__main__":
    if sys.argv[1:] == ["table"]:
        table()
    else:
        unittest.main()
