"""Makes the lines that `cert_tool` prints from its JSON documents (docs/tables/JSON.md).

A document comes from Python's `json`, or from `described.py`, which makes it with other programs.
"""

import re


def shown(text, escaped=""):
    """Escapes what isn't printable, and these characters, as their bytes in base 16."""
    return "".join(
        c if c.isprintable() and c not in escaped else "".join(f"\\{it:02X}" for it in c.encode())
        for c in text
    )


def plain(text):
    return shown(text, "\\")


def identifier(of):
    return f"{of['name']} ({of['id']})" if "name" in of else of["id"]


STRINGS = (
    "UTF8String NumericString PrintableString TeletexString IA5String VisibleString GeneralString"
).split()


def wide(octets):
    """Returns the text of a BMPString whose units aren't all characters."""
    units = [octets[place : place + 4] for place in range(0, len(octets), 4)]
    is_none = [len(unit) < 4 or 0xD800 <= int(unit, 16) < 0xE000 for unit in units]
    return "".join(
        f"\\u{unit.upper()}" if none else plain(chr(int(unit, 16)))
        for unit, none in zip(units, is_none)
    )


def value(of):
    """Returns the text of an identifier, or of a value of any type."""
    if "type" not in of:
        return identifier(of)
    kind = of["type"]
    if "text" in of:
        return f"{kind} {plain(of['text'])}"
    if kind == "BMPString":
        return f"{kind} {wide(of['octets'].replace(':', ''))}"
    if kind in STRINGS:
        is_kept = "UTF8String" != kind
        return f"{kind} " + "".join(
            plain(chr(it)) if is_kept and it < 0x80 else f"\\{it:02X}"
            for it in bytes.fromhex(of["octets"].replace(":", ""))
        )
    return f"{kind}, octets {of['octets']}"


# Each function below returns the lines of an object. The caller may indent them, or put words
# before the first one.


def indented(lines):
    return ("  " + line for line in lines)


def after(words, lines):
    for place, line in enumerate(lines):
        yield line if place else words + line


def each(lines):
    """Returns a function for a list of objects."""
    return lambda listed: (line for of in listed for line in lines(of))


def members(of):
    """Yields the lines of the members of an object, by the table LINES."""
    for key in filter(LINES.get, of):
        lines, member = LINES[key], of[key]
        yield from [lines.format(member)] if isinstance(lines, str) else lines(member)


def headed(heading):
    """Returns a function for objects with a heading, whose members are indented."""
    return lambda of: [heading(of), *indented(members(of))]


def algorithm(word):
    def heading(of):
        if "default" in of:
            return f"{word} {of['default']} by default"
        inner = f" with {identifier(of['parameters'])}" if "id" in of.get("parameters", ()) else ""
        return f"{word} {identifier(of)}{inner}" if "id" in of else word

    return headed(heading)


def apart(mark, text):
    """Returns the parts of a name's text between the marks that aren't escaped."""
    return re.findall(rf"(?:[^{mark}\\]|\\.)+", text, re.DOTALL)


def name(of):
    yield shown(of["text"])
    # The text begins with the last RDN. It has the attributes of each RDN in their order; those
    # that have a line of their own are printed as arcs and bytes, and begin with a digit.
    relatives = reversed(apart(",", of["text"]))
    told = [part for relative in relatives for part in apart(r"+", relative)]
    for part, each in zip(told, of["attributes"], strict=True):
        if re.match(r"[0-9.]+=#", part):
            yield f"  {identifier(each)} {value(each)}"


def party(of):
    by = f" assigned by {plain(of['nameAssigner'])}" if "nameAssigner" in of else ""
    return [f"party {plain(of['partyName'])}{by}"]


def mapping(of):
    return [" is ".join(identifier(of[f"{it}DomainPolicy"]) for it in ("issuer", "subject"))]


def qualifier(of):
    yield identifier(of) + (f" {value(of)}" if "type" in of else "")
    yield from indented(each(members)(of.get("notice", [])))


def timestamp(of):
    if "octets" in of:
        return members(of)
    date = f"{of['date']} + " if "date" in of else ""
    lines = [f"log {of['logID']}", f"  {date}{of['milliseconds']} ms"]
    lines += [f"  extensions {of['extensions']}"] if "extensions" in of else []
    return [*lines, "  signature {hashAlgorithm} {signatureAlgorithm} {signature}".format(**of)]


def curve(of):
    if "id" in of or "type" in of:
        return [f"curve {value(of)}", *(["  malformed"] if "malformed" in of else [])]
    return ["curve given by its parameters", *indented(members(of))]


def item(word):
    """Returns what makes the lines of an item of a block, which may be malformed."""
    return lambda of: [word + of] if isinstance(of, str) else [word + value(of), "  malformed"]


def block(of):
    """Returns the lines of a block of addresses."""
    if "addressFamily" not in of:
        return [value(of)]
    safi = f" SAFI {of['safi']}" if "safi" in of else ""
    inherit = " inherit" if "inherit" in of else ""
    items = each(item(""))(of.get("addresses", []))
    return [f"{of['addressFamily']}{safi}{inherit}", *indented(items)]


def responder(of):
    if "byKey" in of:
        return [f"responder key {of['byKey']}"]
    return after("responder name ", name(of["byName"]))


def attributes(word):
    return each(headed(lambda of: f"{word} {identifier(of)}"))


def extension_heading(of):
    return f"extension {identifier(of)}{' critical' if of['critical'] else ''}"


FEATURES = {5: "status_request (5)", 17: "status_request_v2 (17)"}
# The line of a member, in which its value takes the place of {}, or the function that makes lines
# of the value.
LINES = {
    "kind": "{}", "version": "version {}", "serialNumber": "serial {}",
    "notBefore": "not-before {}", "notAfter": "not-after {}", "thisUpdate": "this-update {}",
    "nextUpdate": "next-update {}", "issuerUniqueID": "issuer-id {}",
    "subjectUniqueID": "subject-id {}", "signatureValue": "  bits {}", "keyIdentifier": "key {}",
    "saltLength": "salt {}", "trailerField": "trailer {}", "pathLenConstraint": "path length {}",
    "number": "number {}", "reason": "{}", "date": "{}", "octets": "octets {}", "bits": "{} bits",
    "requireExplicitPolicy": "require explicit policy after {}",
    "inhibitPolicyMapping": "inhibit policy mapping after {}",
    "skipCerts": "inhibit anyPolicy after {}",
    "authorityCertSerialNumber": "serial {}", "iPAddress": "IP {}",
    "minimum": "  minimum {}", "maximum": "  maximum {}",
    "onlyContainsUserCerts": "only end-entity certificates",
    "onlyContainsCACerts": "only CA certificates",
    "onlyContainsAttributeCerts": "only attribute certificates",
    "indirectCRL": "also certificates of other issuers",
    "unusedBits": "unused bits {}", "unread": "not read here: {}",
    "templateMajorVersion": "major version {}", "templateMinorVersion": "minor version {}",
    "issuerNameHash": "issuer-name-hash {}", "issuerKeyHash": "issuer-key-hash {}",
    "producedAt": "produced-at {}", "revocationTime": "revocation-time {}",
    "revocationReason": "revocation-reason {}", "nonce": "nonce {}", "crlNum": "CRL number {}",
    "crlTime": "CRL time {}", "length": "length {}", "detached": "detached", "choice": "choice {}",
    "subjectKeyIdentifier": "key {}", "hashedMessage": "hashed-message {}", "genTime": "time {}",
    "seconds": "seconds {}", "millis": "milliseconds {}", "micros": "microseconds {}",
    "ordering": "ordering", "privateKeyLength": "private key {} bytes",
    "publicKey": "public key {}", "salt": "salt {}", "iterationCount": "iterations {}",
    "keyLength": "key length {}", "costParameter": "cost {}", "blockSize": "block size {}",
    "parallelizationParameter": "parallelization {}",
    "encryptedDataLength": "encrypted data {} bytes",
    "cA": lambda of: [f"authority {'yes' if of else 'no'}"],
    "nameRelativeToCRLIssuer": lambda of: [f"below the issuer {shown(of)}"],
    "value": lambda of: [value(of)],
    "field": lambda of: [f"field {value(of)}"],
    "hash": lambda of: [f"hash {value(of)}"],
    "organization": lambda of: [f"of {value(of)}"],
    "explicitText": lambda of: [f"text {value(of)}"],
    "noticeRef": each(members),
    "noticeNumbers": each(lambda of: [f"number {of}"]),
    "rfc822Name": lambda of: [f"email {plain(of)}"],
    "dNSName": lambda of: [f"DNS {plain(of)}"],
    "uniformResourceIdentifier": lambda of: [f"URI {plain(of)}"],
    "registeredID": lambda of: [f"identifier {identifier(of)}"],
    "otherName": lambda of: [f"other {identifier(of)} {value(of)}"],
    "directoryName": lambda of: after("name ", name(of)),
    "ediPartyName": party,
    "issuer": lambda of: after("issuer ", name(of)),
    "subject": lambda of: after("subject ", name(of)),
    "signature": algorithm("algorithm"),
    "subjectPublicKeyInfo": algorithm("key"),
    "signatureAlgorithm": algorithm("signature"),
    "hashAlgorithm": algorithm("digest"),
    "maskGenAlgorithm": algorithm("mask"),
    "curve": curve,
    "parameters": lambda of: [f"parameters {value(of)}"] if "type" in of else [],
    "templateID": lambda of: [f"template {identifier(of)}"],
    "addressBlocks": each(block),
    "asnum": each(item("AS ")),
    "rdi": each(item("routing domain ")),
    "uses": list,
    "types": list,
    "purposes": each(lambda of: [identifier(of)]),
    "features": each(lambda of: [FEATURES.get(of, str(of))]),
    "mappings": each(mapping),
    "cRLIssuer": each(lambda of: after("issued by ", members(of))),
    "authorityCertIssuer": each(lambda of: after("issuer ", members(of))),
    "permittedSubtrees": each(lambda of: after("permitted ", members(of))),
    "excludedSubtrees": each(lambda of: after("excluded ", members(of))),
    "accesses": each(lambda of: after(f"{identifier(of)} ", members(of["accessLocation"]))),
    "points": each(headed(lambda of: "point")),
    "policies": each(headed(identifier)),
    "qualifiers": each(qualifier),
    "timestamps": each(timestamp),
    "attributes": attributes("attribute"),
    "signedAttrs": attributes("attribute"),
    "unsignedAttrs": attributes("unsigned attribute"),
    "values": each(lambda of: members(of) if {"extensions", "date"} & of.keys() else [value(of)]),
    "requestorName": lambda of: after("requestor ", members(of)),
    "requestList": each(headed(lambda of: "request")),
    "responseType": lambda of: [f"response-type {identifier(of)}"],
    "responderID": responder,
    "responses": each(headed(lambda of: "response")),
    "crlUrl": lambda of: [f"CRL URL {plain(of)}"],
    "responseTypes": each(lambda of: [identifier(of)]),
    "preferredAlgorithms": each(headed(lambda of: "preferred")),
    "sigIdentifier": algorithm("algorithm"),
    "certIdentifier": algorithm("key"),
    "contentType": lambda of: [f"content-type {identifier(of)}"],
    "content": lambda of: [f"content {value(of)}"],
    "digestAlgorithms": each(algorithm("digest")),
    "digestAlgorithm": algorithm("digest"),
    "encapContentInfo": headed(lambda of: f"encapsulated {identifier(of)}"),
    "format": lambda of: [f"format {identifier(of)}"],
    "signerInfos": each(headed(lambda of: "signer")),
    "policy": lambda of: [f"policy {identifier(of)}"],
    "accuracy": headed(lambda of: "accuracy"),
    "tsa": lambda of: after("tsa ", members(of)),
    "statusString": each(lambda of: [f"text {plain(of)}"]),
    "failInfo": each(lambda of: [f"failure {of}"]),
    "timeStampToken": headed(lambda of: "token"),
    "privateKeyAlgorithm": algorithm("algorithm"),
    "encryptionAlgorithm": algorithm("algorithm"),
    "keyDerivationFunc": algorithm("derivation"),
    "encryptionScheme": algorithm("cipher"),
    "prf": algorithm("function"),
    "revokedCertificates": each(
        headed(lambda of: f"revoked {of['userCertificate']} {of['revocationDate']}")
    ),
}
LINES |= dict.fromkeys(["names", "fullName"], each(members))
LINES |= dict.fromkeys(["reasons", "onlySomeReasons"], each(lambda of: [f"for {of}"]))
LINES |= dict.fromkeys(
    ["extensions", "crlExtensions", "crlEntryExtensions", "singleRequestExtensions",
     "requestExtensions", "singleExtensions", "responseExtensions"],
    each(headed(extension_heading)),
)
LINES |= dict.fromkeys(["responseStatus", "certStatus", "status"], "status {}")
LINES |= dict.fromkeys(["certs", "certificates"], each(headed(lambda of: "certificate")))
LINES["crls"] = each(headed(lambda of: "list"))
DIGESTED = ["certificate", "list", "request", "key", "ocsp-request", "ocsp-response", "message",
            "timestamp"]
LINES |= {
    key: key + " {}"
    for key in "modulus exponent point p q g public prime a b seed generator order cofactor".split()
    + [f"{of}-sha{size}" for of in DIGESTED for size in (1, 256)]
    + ["key-bits-sha1", "key-pin-sha256"]
}
LINES |= dict.fromkeys(["malformed", "malformedParameters"], "malformed")


# What `explain` finds.


def place(of):
    offset = f"{of['offset']} + " if of["offset"] else ""
    return f"octet {offset}{of['octet']}"


def section(of):
    return f" ({of['section']})" if "section" in of else ""


def where(of):
    return f"  {of['identifier']}: {of['path']} ({place(of)})"


def remark(of):
    words = f"remark: {shown(of['remark'])}{section(of)}"
    if "len" in of:
        return [f"{words}: IP address of {of['len']} octets", where(of)]
    if "policy" in of:
        return [f"{words}: {identifier(of['policy'])}", where(of)]
    return [*(list(after(f"{words}: ", members(of))) or [words]), where(of)]


def finding(of):
    return [f"{of['finding']}{section(of)}", *([where(of)] if "identifier" in of else [])]


def broken_rule(of):
    yield f"{of['rule']}: {shown(of['reason'])}{section(of)}"
    yield from indented(map(shown, of.get("details", [])))


def unmet(of):
    return [f"not met at {of['place']}: {of['limit']}: {of['reason']}{section(of)}"]


def certificate(of):
    yield f"certificate {of['certificate']}, {shown(of['subject'])}"
    yield from indented(explained(of))


def fault(of):
    yield f"{place(of)}: {of['fault']}{section(of)}"
    for part in of["path"]:
        yield f"  in {part['part']} ({part['type']}, {place(part)})"
    if "cut" in of:
        yield f"  {of['cut']}"
    if of.get("expected"):
        typed = [it["part"] + (f" ({it['type']})" if "type" in it else "") for it in of["expected"]]
        yield f"  expected: {', '.join(typed)}"
    if "hint" in of:
        yield f"  {of['hint']}"


def stream_fault(of):
    yield f"certificate {of['certificate']}, octet {of['octet']}: {of['fault']}"
    if "hint" in of:
        yield f"  {of['hint']}"


def anchor(of):
    subject = f", {shown(of['subject'])}" if "subject" in of else ""
    yield f"anchor at octet {of['octet']}{subject}"
    yield from (f"  not judged: {each}" for each in of.get("unjudged", []))


# The lines of a finding, by the first of these members that it has.
FINDINGS = {
    "finding": finding,
    "remark": remark,
    "rule": broken_rule,
    "limit": unmet,
    "findings": certificate,
    "path": fault,
    "certificate": stream_fault,
    "certificates": lambda of: [f"certificates: {of['certificates']}, without errors"],
    "anchors": lambda of: [f"trust anchors: {of['anchors']}, each with a name and a key"],
    "fault": lambda of: [f"anchor at octet {of['octet']}: {of['fault']}"],
    "octet": anchor,
    "unjudged": lambda of: [f"not judged: {of['unjudged']}"],
}


def explained(document):
    for of in document["findings"]:
        yield from next(lines for key, lines in FINDINGS.items() if key in of)(of)


def quoted(text):
    """A string of JSON in which every character is an escape that isn't one of ASCII."""
    octets = text.encode("utf-16-be")
    units = [octets[at : at + 2].hex() for at in range(0, len(octets), 2)]
    plain = [chr(int(it, 16)) for it in units]
    return '"' + "".join(
        it if " " <= it <= "~" and it not in '"\\' else f"\\u{unit}"
        for it, unit in zip(plain, units)
    ) + '"'


def verdict(of):
    words = [str(of[key]) for key in ("verdict", "place", "offset", "rule", "kind") if key in of]
    words += [f"calls={of['calls']}"] if "calls" in of else []
    words += [quoted(of["endEntity"]["subject"])] if "endEntity" in of else []
    if "ends" not in of:
        return [" ".join(words)]
    ends = [str(of[key]) for key in ("ends", "notAfter") if key in of]
    return [" ".join(words), f"ends {' '.join(ends)}"]


# The function that makes the lines of a document, by the command that writes it.
DOCUMENTS = {
    "describe": members,
    "explain": explained,
    "verify": verdict,
    "split": each(lambda of: ["{place} {offset} {length}".format(**of)]),
}
