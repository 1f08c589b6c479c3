"""For each rule of `vuyhanip verify` a line of the package without which it isn't there: what a test of the rules has
to notice. The old text is one line, and is in its file once."""
from typing import NamedTuple


class Removal(NamedTuple):
    """A rule, and a line that takes it away."""

    rule: str
    old: str
    new: str
    file: str = "rules.py"


REMOVALS = (
    Removal("no-signers", 'return "" if case.signers else "no signers"', 'return ""'),
    Removal("other-content", "if has_both and case.content != case.given else", "if not has_both and case.given else"),
    Removal("content-form", "is_other = tag == SEGMENTS or", "is_other ="),
    Removal("content-form", "is_other = tag == SEGMENTS or", "is_other = tag == SEGMENTS and"),
    Removal("stamp-signers", "if case.is_stamp and len(case.signers) > 1 else", "if not case.signers else"),
    Removal("bad-attributes", "return str(signer) if isinstance(signer, der.BadAttributes) else", 'return ""  #'),
    Removal(
        "attributes-as-content", "if is_over_content and content[:1] ==", "if not is_over_content and content[:1] ==",
    ),
    Removal("unread-certificate", "if facts(it) is None:", "if not it:"),
    Removal("same-issuer-and-serial", "if len(those) > len(names) else", "if len(those) < len(names) else"),
    Removal("signing-certificate", 'return "" if is_so else "its signed', 'return "" if values else "its signed'),
    Removal("signing-certificate", "and first.contents in made", "and made"),
    Removal("algorithm-of-key", "or signer.signature_oid not in ALGORITHMS.get(it.key, ()):", "or not it.key:"),
    Removal("algorithm-of-key", "and it.key == RSA and not case.is_of_cms", "and not it.key"),
    Removal("digest-of-signature", 'return "" if is_same else', 'return "" if which else'),
    Removal("salt-length", "any(not 0 <= it < 1 << 31 for it in lengths)", "any(it < 0 for it in lengths)"),
    Removal("salt-length", "any(not 0 <= it < 1 << 31 for it in lengths)", "any(it >= 1 << 31 for it in lengths)"),
    Removal("exponent", "if it.exponent < 3 or it.exponent % 2 == 0:", "if it.exponent < 0:"),
    Removal("exponent", "if it.exponent < 3 or it.exponent % 2 == 0:", "if it.exponent % 2 == 0:"),
    Removal("exponent", "if it.exponent < 3 or it.exponent % 2 == 0:", "if it.exponent < 2:"),
    Removal("exponent", "if it.exponent.bit_length() > MOST_EXPONENT and it.bits > SMALL_RSA:", "if not it.bits:"),
    Removal("named-curve", 'return "" if is_so else "a key', 'return "" if number >= 0 else "a key'),
    Removal("public-key", "if all(map(has_right_key, case.own[number])) else", "if case.own[number] else"),
    Removal("weak-digest", "if signer.digest_oid in WEAK_AS_DIGESTS:", "if not signer.digest_oid:"),
    Removal("weak-digest", "if signer.digest_oid in WEAK_AS_DIGESTS:", "if signer.digest_oid in WEAK_DIGESTS:"),
    Removal("weak-digest", "any(it in case.stamp.digest.lower() for it in WEAK_NAMES)", "not case.stamp.digest"),
    Removal("weak-digest", "in case.stamp.digest.lower() for it in", "== case.stamp.digest for it in"),
    Removal("weak-rsa", "if found < LEAST_RSA else", "if found < 1024 else"),
    Removal("weak-rsa", "if found < LEAST_RSA else", "if found < 2047 else"),
    Removal("weak-curve", "if found < LEAST_CURVE else", "if found < 192 else"),
    Removal("weak-dsa", 'return "DSA" if any(', 'return "DSA" if not any('),
    Removal("indirect-data", "if case.data.content_type == INDIRECT_DATA else", 'if case.data.content_type == "" else'),
    Removal("counter-signature", "if COUNTER_SIGNATURE in types else", "if not types else"),
    Removal("no-mac", 'return "in the file" if mac is None else ""', 'return ""'),
    Removal("iterations", "if mac is not None and mac.iterations == 0 else", "if mac is None else"),
    Removal("mac-digest", "if mac is None or mac.digest_algorithm in der.DIGESTS:", "if True:"),
)
