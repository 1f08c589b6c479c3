"""Object identifiers that people meet in containers, with a name and where each is defined."""
from typing import Dict, NamedTuple

from .object_identifiers import TABLE


class Known(NamedTuple):
    """An object identifier that has a name."""

    name: str
    source: str


def _read(table: str) -> Dict[str, Known]:
    """The table by object identifier. Two blanks are between its columns."""
    lines = (line.split("  ") for line in table.splitlines() if line)
    return {oid: Known(name, source) for oid, name, source in lines}


NAMES: Dict[str, Known] = _read(TABLE)
# How many characters are shown of an object identifier without a name: 64 octets, of more of which it is in hexadecimal.
MOST_OF_IDENTIFIER = 64 * 3 - 1

# Types of attributes in names that the library leaves dotted, by their names of RFC 4519 and RFC 2985.
SHORT_NAMES: Dict[str, str] = {
    "2.5.4.4": "SN",
    "2.5.4.5": "serialNumber",
    "2.5.4.12": "title",
    "2.5.4.13": "description",
    "2.5.4.15": "businessCategory",
    "2.5.4.17": "postalCode",
    "2.5.4.42": "givenName",
    "2.5.4.43": "initials",
    "2.5.4.44": "generationQualifier",
    "2.5.4.46": "dnQualifier",
    "2.5.4.65": "pseudonym",
    "2.5.4.97": "organizationIdentifier",
    "1.2.840.113549.1.9.1": "emailAddress",
}


def name_of(oid: str) -> str:
    """The name of an object identifier, or itself where it has none here, of a long one the beginning: this is shown,
    and decides nothing."""
    if oid in NAMES:
        return NAMES[oid].name
    return oid if len(oid) <= MOST_OF_IDENTIFIER else f"{oid[:MOST_OF_IDENTIFIER]} .."
