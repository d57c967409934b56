"""Decodes, prints and describes X.509 certificates (RFC 5280), CRLs and CSRs, and validates and
issues certificate chains.

    import wurstdrape

    wurstdrape.describe(der)                        # a dict
    wurstdrape.verify(roots, [ca, server]).trusted  # with `cryptography` as verifier

`verify` checks neither host names nor revocation.

Each function calls C functions of `wurstdrape.h`. The C functions are proved to meet their
contracts if they are called as the header requires. This module calls them so, which is tested and
not proved. Your program must avoid only one thing: don't call a function in the child after `fork`
if the process has several threads (with `multiprocessing`, use "spawn"). Threads may call the
functions at the same time. What `describe` and `describe_text` return is only tested.

This wheel contains no pages. docs/FROM_OTHERS.md (what is proved about each function),
docs/ENCODING.md (the rules of DER) and docs/TRUST.md (a glossary of words such as "place") are only
in the repository. `release.py install` also installs docs/CLI.md (what isn't checked) and, from
docs/tables, JSON.md, ORDERS.md, REFUSALS.md and REMARKS.md, in share/doc/wurstdrape.

Arguments:

- `Octets` is `bytes`, `bytearray` or `memoryview`. The bytes are DER, except for questions and
  answers, signatures, serial numbers and the content bytes of OIDs.
- `Several` is one of these, or an iterable of them, which are concatenated. Several certificates
  are a list, or their bytes one after another.
- `Moment` is seconds since 1970-01-01T00:00:00Z, a `datetime` (which is in local time if it has no
  time zone), or None for the present time. It is rounded down to a whole second.

PEM isn't accepted. This converts PEM, as a TLS server sends it, to a chain:

    blocks = re.findall("-----BEGIN .+?-----END .+?-----", text, re.S)
    chain = [ssl.PEM_cert_to_DER_cert(block) for block in reversed(blocks)]

Leave out the root if the text contains it. The same two lines convert a file of root certificates
to `roots`, whose order doesn't matter. `ssl.PEM_cert_to_DER_cert` raises `ValueError` for a block
of another kind. (If such a block were skipped, another certificate could become the last one, which
is the end entity's.)

Errors:

- `Malformed`: a certificate, CRL, CSR, name or OID can't be decoded, or `questions` can't decode
  the chain. (`judge` and `verify` then return a verdict whose status is FAULTY.)
- `Error`, of which `Malformed` is a subclass: trust anchors, answers, an orders file or an
  algorithm are wrong, a limit is below 6, the chain of `questions` is empty, there is no
  certificate at an index, orders are rejected, or a signature is too long.
- `ValueError`: a number doesn't fit into the argument of a function, such as a time before 1970.
- `MemoryError`: memory ran out.

The environment variable `WURSTDRAPE_LIBRARY`, which is read at import, names another
libwurstdrape.so than the one in the wheel. libwurstdrape_issue.so must be in the same folder.
"""

from __future__ import annotations

import ctypes
import dataclasses
import datetime
import enum
import functools
import json
import math
import os
import pathlib
import time
import typing

__all__ = [
    "Audit", "ChainFault", "Error", "Fault", "FaultKind", "Kind", "LIMIT", "Malformed",
    "OrderFault", "Parts", "Rule", "SERVER_AUTH", "Status", "Validity", "Verdict", "audit",
    "describe", "describe_text", "extension", "fault_of", "identifier_of_text", "identifier_text",
    "issue", "issued", "issuer", "judge", "name_of_text", "name_text", "parts", "public_key",
    "questions", "serial_number", "show", "signed_part", "subject", "validity", "verify",
]

# The default size limit for one certificate of a chain, in bytes.
LIMIT = 65536
# id-kp-serverAuth (RFC 5280 4.2.1.12)
SERVER_AUTH = "1.3.6.1.5.5.7.3.1"

# The text of the module explains these three.
Octets = typing.Union[bytes, bytearray, memoryview]
Several = typing.Union[Octets, typing.Iterable[Octets]]
Moment = typing.Union[datetime.datetime, int, float, None]


class Status(enum.IntEnum):
    """The statuses that the functions of `wurstdrape.h` return.

    - `DONE`: success; of a chain: it is trusted.
    - `REFUSED`: the chain breaks a rule, or the orders are rejected.
    - `FAULTY`: the input can't be decoded as a value, or a text, of the expected type.
    - `EMPTY`: the chain is empty, or has no certificate at this index.
    - `ARGUMENTS`: an argument other than the bytes to decode is wrong, or the orders file is
      malformed.
    - `NO_ROOM`: a buffer is too small. No function of this module reports it.
    - `MEMORY`: memory ran out. The functions of this module raise `MemoryError` instead."""

    DONE = 0
    REFUSED = 1
    FAULTY = 2
    EMPTY = 3
    ARGUMENTS = 4
    NO_ROOM = 5
    MEMORY = 6


class Kind(enum.Enum):
    """The kinds of values that can be decoded: a certificate, a CRL (`LIST`) or a CSR
    (`REQUEST`)."""

    CERTIFICATE = "certificate"
    LIST = "list"
    REQUEST = "request"


class Rule(enum.IntEnum):
    """The rules for each certificate of a chain (RFC 5280 6.1), in the order of the checks.
    For each rule, docs/tables/REFUSALS.md says what to do. A certificate breaks

    - `ALGORITHMS_DIFFER`: if the signature algorithms inside and outside of the TBSCertificate
      differ (RFC 5280 4.1.1.2);
    - `DUPLICATE_EXTENSION`: if two extensions have the same OID (4.2);
    - `MALFORMED_EXTENSION`: if the content of keyUsage, subjectAltName, basicConstraints or
      extKeyUsage can't be decoded;
    - `UNWEIGHED_CRITICAL`: if an extension other than these four is critical (4.2);
    - `WRONG_ISSUER`: if the issuer isn't, byte for byte, the subject of the certificate before or,
      for the first certificate, the name of a trust anchor (6.1.3 (a)(4));
    - `NOT_YET_VALID`: if the validation time is before the validity (6.1.3 (a)(2));
    - `EXPIRED`: if the validation time is after the validity (6.1.3 (a)(2));
    - `AGAINST_PURPOSE`: if extKeyUsage has neither the key purpose nor anyExtendedKeyUsage
      (4.2.1.12);
    - `NOT_AUTHORITY`: if another certificate follows, and this one isn't a CA's (6.1.4 (k), (n));
    - `PATH_TOO_LONG`: if it is an intermediate CA that isn't self-issued, and with it, more such
      CAs follow an earlier certificate than that one's path length allows (6.1.4 (l), (m));
    - `WRONG_SIGNATURE`: if the verifier doesn't accept the signature over the TBSCertificate
      (6.1.3 (a)(1))."""

    ALGORITHMS_DIFFER = 1
    DUPLICATE_EXTENSION = 2
    MALFORMED_EXTENSION = 3
    UNWEIGHED_CRITICAL = 4
    WRONG_ISSUER = 5
    NOT_YET_VALID = 6
    EXPIRED = 7
    AGAINST_PURPOSE = 8
    NOT_AUTHORITY = 9
    PATH_TOO_LONG = 10
    WRONG_SIGNATURE = 11


class ChainFault(enum.IntEnum):
    """The errors of bytes that aren't a sequence of certificates.

    - `NO_CERTIFICATE`: the byte where a certificate should begin isn't 0x30.
    - `INDEFINITE`: the length of the certificate is indefinite.
    - `LENGTH_TOO_WIDE`: the length has more than four bytes after the first.
    - `LENGTH_NOT_SHORTEST`: the length isn't in the shortest form (X.690 10.1).
    - `TOO_LARGE`: the certificate has more bytes than the limit.
    - `MALFORMED`: the bytes aren't a certificate in DER, or have a value that isn't supported, such
      as a date before 1970.
    - `TRUNCATED`: the chain ends inside a certificate."""

    NO_CERTIFICATE = 1
    INDEFINITE = 2
    LENGTH_TOO_WIDE = 3
    LENGTH_NOT_SHORTEST = 4
    TOO_LARGE = 5
    MALFORMED = 6
    TRUNCATED = 7


class OrderFault(enum.IntEnum):
    """The reasons why orders are rejected. docs/tables/ORDERS.md has an example of each.

    - `NO_ORDERS`: the file has no orders.
    - `NAME`: the name can't be parsed.
    - `ROOT_NAME`: the name isn't allowed for a root.
    - `SUBSCRIBER_NAME`: the name isn't allowed for an end entity.
    - `SERIAL`: the serial number has no bytes, or more than 20 in DER.
    - `DATES`: a date is invalid, or notAfter is before notBefore.
    - `DNS_NAME`: an end entity has no DNS name, or one that isn't ASCII.
    - `TOO_LONG`: a length exceeds 2^32 - 1."""

    NO_ORDERS = 21
    NAME = 22
    ROOT_NAME = 23
    SUBSCRIBER_NAME = 24
    SERIAL = 25
    DATES = 26
    DNS_NAME = 27
    TOO_LONG = 28


class FaultKind(enum.IntEnum):
    """The kinds of decoding errors. docs/ENCODING.md says which bytes cause which of them.

    - `INCOMPLETE`: the input ends too early.
    - `INDEFINITE_LENGTH`: a length is indefinite, which DER doesn't allow.
    - `LENGTH`: the type can't have this length, or the length isn't in its shortest form.
    - `NESTING_DEPTH`: values are nested more than 64 levels deep.
    - `NONCANONICAL`: a value isn't encoded in the only form that DER allows.
    - `OID_MALFORMED`: the bytes aren't an object identifier.
    - `OVERFLOW`: a length exceeds 2^32 - 1.
    - `OVERLENGTH`: a length has more than four bytes after its first.
    - `SET_DUPLICATE`: a set contains a member twice.
    - `SET_ORDERING`: a member of a set is less than the one before it.
    - `TAG_NUMBER_INVALID`: a tag number isn't in its shortest form, or exceeds 32 bits.
    - `TAG_UNEXPECTED`: the tag isn't the expected one.
    - `TAG_UNKNOWN`: the tag is of the universal class and isn't supported.
    - `TRAILING_DATA`: there are bytes after the last field or value.
    - `UTF8`: a text isn't UTF-8.
    - `VALUE`: the type doesn't have this value, such as a date that isn't one or is before 1970.

    `fault_of` never returns the others, which aren't errors of bytes: `DATE_TIME`,
    `ENCODING_RULES`, `FAILED`, `OID_UNKNOWN`, `OUT_OF_MEMORY`, `READER` and `TAG_MODE_UNKNOWN`."""

    DATE_TIME = 1
    ENCODING_RULES = 2
    FAILED = 3
    INCOMPLETE = 4
    INDEFINITE_LENGTH = 5
    LENGTH = 6
    NESTING_DEPTH = 7
    NONCANONICAL = 8
    OID_MALFORMED = 9
    OID_UNKNOWN = 10
    OUT_OF_MEMORY = 11
    OVERFLOW = 12
    OVERLENGTH = 13
    READER = 14
    SET_DUPLICATE = 15
    SET_ORDERING = 16
    TAG_MODE_UNKNOWN = 17
    TAG_NUMBER_INVALID = 18
    TAG_UNEXPECTED = 19
    TAG_UNKNOWN = 20
    TRAILING_DATA = 21
    UTF8 = 22
    VALUE = 23


@dataclasses.dataclass(frozen=True)
class Fault:
    """The first error that decoding meets.

    - `kind`: what is wrong. It is what `wd_is_*` stores, which is proved.
    - `octet`: the index of the byte at which the error was found, counted from 0, or None if it
      isn't known. It is only tested."""

    kind: FaultKind
    octet: int | None


class Error(Exception):
    """The error of a call.

    - `status`: ARGUMENTS if an argument is wrong, EMPTY if the chain is empty or has no certificate
      at the index, REFUSED if the orders are rejected, and FAULTY for `Malformed`."""

    def __init__(self, status: Status, why: str):
        super().__init__(why)
        self.status = status


class Malformed(Error):
    """The input can't be decoded.

    - `fault`: the first error (a `Fault`) of a certificate, a CRL or a CSR. It is None for other
      inputs."""

    def __init__(self, what: str, fault: Fault | None = None):
        where = "" if fault is None else f": {fault.kind.name}"
        if fault is not None and fault.octet is not None:
            where += f" at byte {fault.octet}"
        super().__init__(Status.FAULTY, f"not {what}{where}")
        self.fault = fault


@dataclasses.dataclass(frozen=True)
class Validity:
    """The validity period of a certificate.

    - `not_before`, `not_after`: its first and its last second, in UTC."""

    not_before: datetime.datetime
    not_after: datetime.datetime


@dataclasses.dataclass(frozen=True)
class Parts:
    """The parts of a certificate (RFC 5280 4.1), as views of the bytes that were passed to `parts`.

    - `signed_part`: the TBSCertificate.
    - `serial_number`: the content bytes: two's complement, most significant byte first.
    - `issuer`, `subject`: the names in DER.
    - `public_key`: the SubjectPublicKeyInfo, which contains the public key and its algorithm."""

    signed_part: memoryview
    serial_number: memoryview
    issuer: memoryview
    subject: memoryview
    public_key: memoryview


@dataclasses.dataclass(frozen=True)
class Verdict:
    """The verdict on a chain. `bool(verdict)` is True exactly if the chain is trusted.

    - `status`: DONE if the chain is trusted, REFUSED if a certificate breaks a rule, FAULTY if the
      chain isn't a sequence of certificates, and EMPTY if it is empty.
    - `place`: with REFUSED, the index of the first certificate that breaks a rule. A trust anchor
      issued the certificate at index 0. With FAULTY, the number of certificates before the error.
    - `rule`: with REFUSED, the first rule that this certificate breaks. For each rule,
      docs/tables/REFUSALS.md says what to do.
    - `offset`, `fault`: with FAULTY, the index of the first byte that belongs to no certificate,
      and the kind of the error."""

    status: Status
    place: int | None = None
    rule: Rule | None = None
    offset: int | None = None
    fault: ChainFault | None = None

    @property
    def trusted(self) -> bool:
        """Whether the chain is trusted."""
        return self.status is Status.DONE

    def __bool__(self) -> bool:
        return self.trusted


@dataclasses.dataclass(frozen=True)
class Audit:
    """The answer of `audit`: whether the chain that an orders file describes will be trusted, if
    its signatures are valid and each certificate is within the size limit of the validation.
    `bool(audit)` is True exactly if `status` is DONE.

    - `status`: DONE if the chain will be trusted, and REFUSED otherwise.
    - `place`: with REFUSED, the index of the certificate that breaks a rule, or of the order that
      is rejected.
    - `rule`, `fault`: with REFUSED, the rule, or the reason why the order is rejected. The other
      one is None."""

    status: Status
    place: int | None = None
    rule: Rule | None = None
    fault: OrderFault | None = None

    @property
    def trusted(self) -> bool:
        """Whether the status is DONE."""
        return self.status is Status.DONE

    def __bool__(self) -> bool:
        return self.trusted


# The structures of wurstdrape.h.
_BOOL, _U32, _U64, _SIZE = ctypes.c_bool, ctypes.c_uint32, ctypes.c_uint64, ctypes.c_size_t
# The numbers of bits of numbers. `ctypes` would drop all further bits of an argument.
_BITS = {_U32: 32, _U64: 64}


def _structure(**fields) -> type[ctypes.Structure]:
    return type("_Structure", (ctypes.Structure,), {"_fields_": list(fields.items())})


_Fault = _structure(kind=_U32, octet=_U64)
_Validity = _structure(not_before=_U64, not_after=_U64)
_Span = _structure(start=_SIZE, size=_SIZE)
_Spans = _structure(**{part.name: _Span for part in dataclasses.fields(Parts)})
_Place = _structure(place=_U64, offset=_U64, number=_U64)
_Reason = _structure(place=_U64, number=_U64)

# The functions of wurstdrape.h by their arguments, which are words of _TYPES.
_CALLS = {
    "octets fault": "wd_is_certificate wd_is_list wd_is_request",
    "octets out": "wd_show_certificate wd_show_list wd_show_request wd_subject wd_issuer "
    "wd_name_text wd_name_of_text wd_identifier_text wd_identifier_of_text",
    "octets bool out": "wd_describe_certificate wd_describe_list wd_describe_request",
    "octets spans": "wd_parts",
    "octets validity": "wd_dates",
    "octets octets span critical": "wd_extension",
    "octets octets u32 out": "wd_questions",
    "octets octets octets u64 octets u32 place": "wd_verify",
}
_ISSUING_CALLS = {
    "octets u32 octets out": "wd_signed_part",
    "octets u32 octets octets out": "wd_issue",
    "octets octets u64 octets reason": "wd_audit",
}
_TYPES = {
    "octets": [ctypes.c_char_p, _SIZE],
    "out": [ctypes.c_char_p, _SIZE, ctypes.POINTER(_SIZE)],
    "bool": [_BOOL],
    "critical": [ctypes.POINTER(_BOOL)],
    "u32": [_U32],
    "u64": [_U64],
    "fault": [ctypes.POINTER(_Fault)],
    "validity": [ctypes.POINTER(_Validity)],
    "span": [ctypes.POINTER(_Span)],
    "spans": [ctypes.POINTER(_Spans)],
    "place": [ctypes.POINTER(_Place)],
    "reason": [ctypes.POINTER(_Reason)],
}

# The shared library: the one that WURSTDRAPE_LIBRARY names, or the one in this folder.
_BESIDE = pathlib.Path(__file__).resolve().with_name("libwurstdrape.so")
_FILE = pathlib.Path(os.environ.get("WURSTDRAPE_LIBRARY", _BESIDE))


def _load(file: pathlib.Path, calls: dict[str, str]) -> ctypes.CDLL:
    library = ctypes.CDLL(str(file))
    for words, names in calls.items():
        for name in names.split():
            call = getattr(library, name)
            call.argtypes = [it for word in words.split() for it in _TYPES[word]]
            call.restype = Status
    return library


_library = _load(_FILE, _CALLS)


@functools.lru_cache(maxsize=None)
def _issuing() -> ctypes.CDLL:
    """Loads the library of the functions that issue, which is in the same folder."""
    return _load(_FILE.with_name("libwurstdrape_issue.so"), _ISSUING_CALLS)


# What may be wrong if a function returns ARGUMENTS. The OIDs were valid.
_WRONG_ORDERS = (
    "the orders file or the algorithm is malformed; `cert_desk issue FILE` names the wrong line"
)
_WRONG = {
    "wd_questions": "the trust anchors or the limit are wrong; `cert_tool explain anchors FILE` "
    "checks the anchors",
    "wd_verify": "the trust anchors, the answers or the limit are wrong; `cert_tool explain "
    "anchors FILE` checks the anchors",
    "wd_signed_part": _WRONG_ORDERS,
    "wd_issue": f"the signature is too long, or {_WRONG_ORDERS}",
    "wd_audit": _WRONG_ORDERS,
}


def _run(call, *values) -> Status:
    """Calls a function, which takes bytes and texts as a pointer and a length. Raises the error for
    the statuses ARGUMENTS and MEMORY."""
    arguments = []
    for value in values:
        if isinstance(value, str):
            value = value.encode()
        if isinstance(value, (bytes, bytearray, memoryview)):
            value = bytes(value)
            arguments.append(value)
            value = len(value)
        arguments.append(value)
    for kind, value in zip(call.argtypes, arguments):
        if kind in _BITS and not 0 <= value < 2 ** _BITS[kind]:
            raise ValueError(f"{value} isn't from 0 to 2^{_BITS[kind]} - 1")
    status = call(*arguments)
    if status is Status.ARGUMENTS:
        raise Error(status, _WRONG.get(call.__name__, "an argument is wrong"))
    if status is Status.MEMORY:
        raise MemoryError
    return status


_NOUNS = {Kind.CERTIFICATE: "a certificate", Kind.LIST: "a CRL", Kind.REQUEST: "a CSR"}
_REASONS = {
    Status.REFUSED: "the orders are rejected; `audit` says why",
    Status.EMPTY: "the chain is empty, or has no certificate at this index",
}


def _raise_unless_done(status: Status, what: str | Kind, octets: Octets = b"") -> None:
    """Raises the error for a status other than DONE. `what` is what was expected."""
    if status is Status.FAULTY and isinstance(what, Kind):
        raise Malformed(_NOUNS[what], fault_of(octets, what))
    if status is Status.FAULTY:
        raise Malformed(what)
    if status is not Status.DONE:
        raise Error(status, _REASONS[status])


def _written(what: str | Kind, call, *values) -> bytes:
    """Returns what a function writes. It is called again if it needs a larger buffer."""
    room, length = 4096, _SIZE()
    while True:
        out = ctypes.create_string_buffer(room)
        status = _run(call, *values, out, room, length)
        if status is not Status.NO_ROOM:
            _raise_unless_done(status, what, values[0])
            return ctypes.string_at(out, length.value)
        room = length.value


def _of(kind: Kind, name: str):
    """Returns the function with this name for a kind."""
    return getattr(_library, f"wd_{name}_{kind.value}")


def fault_of(der: Octets, kind: Kind = Kind.CERTIFICATE) -> Fault | None:
    """Returns the first error of decoding a value of the kind, or None if there is none."""
    told = _Fault()
    status = _run(_of(kind, "is"), der, told)
    if status is Status.FAULTY:
        return Fault(FaultKind(told.kind), None if told.octet == 2**64 - 1 else told.octet)
    _raise_unless_done(status, kind)
    return None


def show(der: Octets, kind: Kind = Kind.CERTIFICATE) -> str:
    """Returns a short listing, as `cert_desk show` prints it. It is the text of `wd_show_*`,
    which is proved."""
    return _written(kind, _of(kind, "show"), der).decode()


def describe_text(der: Octets, kind: Kind = Kind.CERTIFICATE) -> str:
    """Returns the description, as `cert_tool describe` prints it. The text is tested, but not
    proved."""
    return _written(kind, _of(kind, "describe"), der, False).decode()


def describe(der: Octets, kind: Kind = Kind.CERTIFICATE) -> dict:
    """Returns what `cert_tool describe --json` would print, as a dict. The text is tested, but not
    proved. docs/tables/JSON.md lists the members."""
    return json.loads(_written(kind, _of(kind, "describe"), der, True))


def subject(der: Octets) -> str:
    """Returns the subject's name as text (RFC 4514)."""
    return _written(Kind.CERTIFICATE, _library.wd_subject, der).decode()


def issuer(der: Octets) -> str:
    """Returns the issuer's name as text (RFC 4514)."""
    return _written(Kind.CERTIFICATE, _library.wd_issuer, der).decode()


def _at(der: Octets, span: _Span) -> memoryview:
    return memoryview(der)[span.start : span.start + span.size]


def parts(der: Octets) -> Parts:
    """Returns the parts of a certificate, as views of `der`. (A `bytearray` or `memoryview` is
    copied for the call.)"""
    spans = _Spans()
    _raise_unless_done(_run(_library.wd_parts, der, spans), Kind.CERTIFICATE, der)
    return Parts(*(_at(der, getattr(spans, name)) for name, _ in spans._fields_))


def serial_number(der: Octets) -> int:
    """Returns the serial number."""
    return int.from_bytes(parts(der).serial_number, "big", signed=True)


def public_key(der: Octets) -> bytes:
    """Returns the SubjectPublicKeyInfo (RFC 5280 4.1.2.7)."""
    return bytes(parts(der).public_key)


def validity(der: Octets) -> Validity:
    """Returns the validity period."""
    told = _Validity()
    _raise_unless_done(_run(_library.wd_dates, der, told), Kind.CERTIFICATE, der)
    seconds = told.not_before, told.not_after
    return Validity(*(datetime.datetime.fromtimestamp(it, datetime.timezone.utc) for it in seconds))


def extension(der: Octets, identifier: str) -> tuple[memoryview, bool] | None:
    """Returns the content of the first extension with an OID (such as `2.5.29.19`), as a view of
    `der`, and whether it is critical. Returns None if there is no such extension.

    A second extension with the same OID, which RFC 5280 4.2 forbids and `verify` rejects, isn't
    reported. Raises `Malformed` if `identifier` isn't an OID of at most 39 content bytes."""
    span, critical = _Span(), _BOOL()
    octets = identifier_of_text(identifier)
    status = _run(_library.wd_extension, der, octets, span, critical)
    if status is Status.EMPTY:
        return None
    _raise_unless_done(status, Kind.CERTIFICATE, der)
    return _at(der, span), critical.value


def name_text(der: Octets) -> str:
    """Returns the text (RFC 4514) of a name that is given in DER."""
    return _written("a name", _library.wd_name_text, der).decode()


def name_of_text(text: str) -> bytes:
    """Returns the DER of a name that is given as text (RFC 4514)."""
    return _written("the text of a name", _library.wd_name_of_text, text)


def identifier_text(octets: Octets) -> str:
    """Returns the dotted text of an OID that is given by its content bytes (X.690 8.19). Raises
    `Malformed` if they aren't an OID of at most 39 bytes."""
    return _written("the content of an OID", _library.wd_identifier_text, octets).decode()


@functools.lru_cache(maxsize=64)
def identifier_of_text(text: str) -> bytes:
    """Returns the content bytes of an OID that is given as dotted text. Raises `Malformed` if the
    text isn't that of an OID of at most 39 content bytes."""
    return _written("the text of an OID", _library.wd_identifier_of_text, text)


def _joined(octets: Several) -> bytes:
    if isinstance(octets, (bytes, bytearray, memoryview)):
        return bytes(octets)
    return b"".join(map(bytes, octets))


def _seconds(at: Moment) -> int:
    if at is None:
        at = time.time()
    if isinstance(at, datetime.datetime):
        at = at.timestamp()
    # Half a second before 1970 is -1, and is rejected.
    try:
        return math.floor(at)
    except OverflowError:
        raise ValueError(f"{at} isn't a number of seconds") from None


def questions(anchors: Several, chain: Several, limit: int = LIMIT) -> list[bytes]:
    """Returns a line for each signature that has to be verified to validate a chain, as
    `cert_tool questions` prints them.

    The first certificate of the chain is the one that a trust anchor issued (the reverse of the
    order of TLS). Trust anchors are certificates, or the other forms of RFC 5914.

    A line is `PLACE ANCHOR KEY ALGORITHM SIGNED BITS` and a newline. PLACE is the index of the
    certificate, and ANCHOR that of the trust anchor, or `-`; a verifier ignores both. The other
    four are in hex: KEY is the SubjectPublicKeyInfo, ALGORITHM the AlgorithmIdentifier, SIGNED the
    signed bytes, and BITS the BIT STRING of the signature, each in DER. The first certificate has a
    line for each trust anchor that has its issuer's name.

    Raises `Malformed` if the chain isn't a sequence of certificates of at most `limit` bytes each
    (for the position of the error, call `judge(b"", anchors, chain, limit=limit)`), and `Error` if
    it is empty, if the trust anchors can't be decoded or have 2^32 bytes or more, or if `limit` is
    below 6."""
    lent = _joined(anchors), _joined(chain), limit
    return _written("a chain", _library.wd_questions, *lent).splitlines(keepends=True)


def judge(
    answers: Several,
    anchors: Several,
    chain: Several,
    at: Moment = None,
    purpose: str = SERVER_AUTH,
    limit: int = LIMIT,
) -> Verdict:
    """Validates a chain with the answers of a signature verifier.

    `answers` are the lines of `questions` whose signatures the verifier has accepted; all other
    signatures count as invalid. `anchors`, `chain` and `limit` are those of `questions`. `at` is
    the validation time: seconds since 1970-01-01T00:00:00Z, such as `time.time()`, or a `datetime`,
    which is in local time if it has no time zone. It is rounded down to a whole second. The default
    is the present time. `purpose` is the OID of the key purpose that extKeyUsage must permit
    (RFC 5280 4.2.1.12); the default is serverAuth.

    Neither host names nor revocation are checked; docs/CLI.md lists what else isn't. A chain that
    isn't trusted raises no error: test `.trusted` of the verdict. Raises `Error` if the trust
    anchors, the answers or the limit are wrong, `Malformed` if the purpose isn't an OID, and
    `ValueError` if the time is before 1970."""
    told = _Place()
    lent = _joined(answers), _joined(anchors), _joined(chain), _seconds(at)
    status = _run(_library.wd_verify, *lent, identifier_of_text(purpose), limit, told)
    if status is Status.REFUSED:
        return Verdict(status, told.place, Rule(told.number))
    if status is Status.FAULTY:
        return Verdict(status, told.place, None, told.offset, ChainFault(told.number))
    if status is not Status.EMPTY:
        _raise_unless_done(status, "a chain")
    return Verdict(status)


def verify(
    roots: Several,
    chain: Several,
    at: Moment = None,
    purpose: str = SERVER_AUTH,
    limit: int = LIMIT,
    verifier: typing.Callable[[bytes], bool] | None = None,
) -> Verdict:
    """Validates a chain under roots: calls `questions`, the verifier for each line, and `judge`.

    `chain` is a list of certificates, or their bytes one after another: the certificate that a root
    issued comes first (the reverse of the order of TLS). Usually, leave the root out of the chain:
    if the chain contains it, the root must keep every rule, too (for example, its dates are
    checked). The other arguments and the errors are those of `judge`. Neither host names nor
    revocation are checked; docs/CLI.md lists what else isn't. A chain that isn't trusted raises no
    error: test `.trusted` of the verdict.

    `verifier` returns whether the signature of a line of `questions` is valid. The default uses
    Python's `cryptography`, in the module `answer`, of which nothing is proved and which lists the
    algorithms. Signatures with other algorithms count as invalid, and those with SHA-1 are
    accepted. The sizes of keys aren't checked beyond what `cryptography` checks. `verify` raises
    `ImportError` if no `verifier` is given and `cryptography` isn't installed. If the chain is
    empty, or isn't a sequence of certificates, the verifier isn't called."""
    roots, chain = _joined(roots), _joined(chain)
    if verifier is None:
        import cryptography  # noqa: F401

        from . import answer

        def verifier(line):
            return answer.refusal(line) is None

    try:
        asked = questions(roots, chain, limit)
    except Error as why:
        if why.status not in (Status.FAULTY, Status.EMPTY):
            raise
        asked = []
    return judge(filter(verifier, asked), roots, chain, at, purpose, limit)


def signed_part(orders: str, place: int, algorithm: Octets) -> bytes:
    """Returns the TBSCertificate at an index of the chain that an orders file describes.

    `orders` is the text of the orders file (not its path), whose format docs/CLI.md describes
    ("Orders"). The root has index 0. Sign these bytes with `algorithm` (an AlgorithmIdentifier in
    DER): those of the root with its own key, and all others with the key of the preceding order.
    Raises `Error` if the orders are malformed or rejected, if the chain has no certificate at this
    index, or if the algorithm is malformed."""
    return _written("a chain", _issuing().wd_signed_part, orders, place, algorithm)


def issued(orders: str, place: int, algorithm: Octets, signature: Octets) -> bytes:
    """Returns the certificate at an index of the chain that an orders file describes, with your
    signature.

    `orders` is as in `signed_part`. `signature` is the signature of what `signed_part` returns for
    this index, as the bytes that the method `sign` of a private key of `cryptography` returns.
    (`issue` makes the whole chain.)

    The signature isn't verified. When you have all certificates in a list `chain`, the root first,
    `verify(chain[0], chain)` verifies all signatures, including the root's own. Raises the errors
    of `signed_part`, and `Error` if the signature is too long."""
    return _written("a chain", _issuing().wd_issue, orders, place, algorithm, signature)


def issue(
    orders: str, algorithm: Octets, sign: typing.Callable[[int, bytes], bytes]
) -> list[bytes]:
    """Issues the certificates that an orders file describes, the root first, all signed with
    one algorithm.

    `orders` is as in `signed_part`. `sign` takes the index of the certificate whose key signs (0
    for the root) and the bytes to sign, and returns the signature, as the bytes that the method
    `sign` of a private key of `cryptography` returns.

    The signatures aren't verified. With the result as `chain`, `verify(chain[0], chain)` verifies
    all of them, including the root's own. Raises `Error` if the orders are malformed or rejected,
    if the algorithm is malformed, or if a signature is too long."""
    certificates: list[bytes] = []
    while True:
        place = len(certificates)
        try:
            part = signed_part(orders, place, algorithm)
        except Error as why:
            if why.status is not Status.EMPTY:
                raise
            return certificates
        signature = sign(max(place - 1, 0), part)
        certificates.append(issued(orders, place, algorithm, signature))


def audit(
    orders: str, algorithm: Octets, at: Moment = None, purpose: str = SERVER_AUTH
) -> Audit:
    """Returns whether the chain that an orders file describes, signed by `algorithm`, will be
    trusted under its own root, if all its signatures are valid and each certificate is within the
    size limit of the validation.

    Nothing is signed. `orders` is as in `signed_part`, and `at` and `purpose` are as in `judge`.
    Raises `Error` if the orders file or the algorithm is malformed, `Malformed` if the purpose
    isn't an OID, and `ValueError` if the time is before 1970."""
    told = _Reason()
    lent = orders, algorithm, _seconds(at), identifier_of_text(purpose)
    status = _run(_issuing().wd_audit, *lent, told)
    if status is not Status.REFUSED:
        _raise_unless_done(status, "a chain")
        return Audit(status)
    if told.number in OrderFault.__members__.values():
        return Audit(status, told.place, fault=OrderFault(told.number))
    return Audit(status, told.place, Rule(told.number))
