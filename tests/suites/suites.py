#!/usr/bin/env python3
"""Validates the chains of six other projects' tests with cert_tool, and writes SUITES.md.

    suites.py CERT_TOOL [FOLDER]

CERT_TOOL is the program. If it is in a folder out/, the page says that `rt` proved and built it.
The script downloads Debian's sources of six projects to FOLDER, some 400 MB, unless they are there.
It updates the tables of the page, and keeps its text.

Each reader below yields the tests of one project. A test that can't be parsed would go unnoticed,
so there is a minimum for each project. Since cert_tool builds no paths, this script tries each path
from the end-entity certificate to an anchor, by names; a chain is trusted if one of its paths is.
examples/answer.py verifies the signatures. If a suite expects another result, the difference gets a
class: for a trusted chain, what the suite tests and cert_tool doesn't; for a rejected chain, the
rule that it breaks. Each path is also tried with --strict; if no path is trusted then, the class is
the stricter check that fails. The status is 1 if a chain is trusted although a rule of cert_tool
should reject it, or if a difference has no class.
"""

import argparse
import base64
import collections
import contextlib
import datetime
import functools
import json
import pathlib
import re
import subprocess
import sys
import tempfile
import warnings

HERE = pathlib.Path(__file__).resolve().parent
TOP = HERE.parents[1]
sys.path[:0] = [str(TOP / it) for it in ("examples", "tools", "tests")]

import needs

needs.check(__file__)

import answer
from cryptography import x509

from der import moment, values
from tool import Tool

warnings.simplefilter("ignore")  # of cryptography, on serial numbers that it will refuse

# A chain: its end-entity certificate, intermediates and anchors, in DER; the validation time in
# seconds since 1970, or None if dates are ignored; a purpose or None; whether it has to be trusted,
# and why not, in the words of the suite.
Test = collections.namedtuple("Test", "suite name end between anchors moment purpose good why")

PEM = re.compile(r"-----BEGIN (?:X509 |TRUSTED )?CERTIFICATE-----(.*?)-----END", re.S)
PURPOSES = {
    "sslserver": "serverAuth", "sslclient": "clientAuth", "codesign": "codeSigning",
    "timestampsign": "timeStamping", "GNUTLS_KP_TLS_WWW_SERVER": "serverAuth",
    "GNUTLS_KP_OCSP_SIGNING": "OCSPSigning", "ExtKeyUsageServerAuth": "serverAuth",
    "ExtKeyUsageClientAuth": "clientAuth", "ExtKeyUsageEmailProtection": "emailProtection",
}


def seconds(year, month=1, day=1, *time):
    date = datetime.datetime(year, month, day, *time, tzinfo=datetime.timezone.utc)
    return int(date.timestamp())


def first_value(octets):
    """Returns the first value, or a truncated one. OpenSSL's trusted certificates have another."""
    try:
        return next(values(octets))[2]
    except ValueError:
        return octets


def of_text(text):
    """Returns the certificates in a text in PEM."""
    return [first_value(base64.b64decode(body)) for body in PEM.findall(text)]


def of_file(path):
    octets = path.read_bytes()
    return of_text(octets.decode("latin-1")) if b"-----BEGIN" in octets else [first_value(octets)]


def of_files(folder, names):
    return [it for name in names for it in of_file(folder / name)]


def openssl(top):
    certs = top / "test" / "certs"
    text = (top / "test" / "recipes" / "25-test_verify.t").read_text()
    call = re.compile(
        r'ok(?:_nofips)?\((!?)verify\("([^"]+)",\s*"([^"]*)",\s*\[(.*?)\],\s*\[(.*?)\]'
        r'((?:,\s*(?:"[^"]*"|@\w+))*)\s*,?\s*\),\s*"([^"]*)"', re.S
    )

    def names(words):
        words = re.sub(r"qw\(([^)]*)\)", r"\1", words)
        return [f"{it}.pem" for it in re.findall(r"[\w.+-]+", words)]

    for refused, end, purpose, anchors, between, options, name in call.findall(text):
        found = names(f"{end} {anchors} {between}")
        if "@" in options or not all((certs / it).exists() for it in found):
            continue  # the same by another provider, or a certificate that isn't there
        options = re.findall(r'"([^"]*)"', options)
        moment = options[options.index("-attime") + 1] if "-attime" in options else seconds(2025)
        good = not refused and "bad othername" not in name
        more = [it for it in options if it.startswith("-") and it != "-attime"]
        trust = re.search(r"[+-](serverAuth|clientAuth|anyEKU)", anchors)
        why = f"{name} {' '.join(more)} {'with trust settings' if trust else ''}"
        end, between, anchors = (of_files(certs, names(it)) for it in (end, between, anchors))
        yield Test("OpenSSL", f"{name}: {found[0]}", end[0], between, anchors, int(moment),
                   PURPOSES.get(purpose), good, why)


def gnutls(top):
    text = (top / "tests" / "test-chains.h").read_text()
    text = re.sub(r"/\*.*?\*/", "", text, flags=re.S)
    arrays = {}
    for name, body in re.findall(r"static const char \*(\w+)\[\] = \{(.*?)\};", text, re.S):
        arrays[name] = []
        for part in body.split("NULL"):  # none stands where a chain ends
            literal = "".join(re.findall(r'"([^"]*)"', part)).replace("\\n", "\n")
            arrays[name] += [*of_text(literal), None]

    def chain(word):
        match = re.fullmatch(r"&?(\w+)(?:\[(\d+)\])?", word)
        listed = arrays[match[1]][int(match[2] or 0) :]
        return listed[: listed.index(None)]

    table = text[text.index("} chains[] =") :]
    table = re.sub(r"^\s*#.*", "", table, flags=re.M)
    for row in re.findall(r"\{\s*(\".*?\".*?)\}", table, re.S):
        name = re.match(r'"([^"]*)"', row)[1]
        words = [word.strip() for word in row[len(name) + 2 :].strip(" ,").split(",")]
        certs, anchor, flags, result, *more = words
        purpose = PURPOSES.get(more[0]) if more else None
        moment = int(more[1]) if len(more) > 1 else 1256803113
        moment = None if "DISABLE_TIME_CHECKS" in flags else moment
        certs = chain(certs)
        yield Test("GnuTLS", name, certs[0], certs[1:], chain(anchor)[:1], moment, purpose,
                   result == "0", f"{name}: {result} {flags}")


def mbedtls(top):
    tests = top / "tests"
    lines = (tests / "suites" / "test_suite_x509parse.data").read_text().splitlines()

    title = ""
    for before, line in zip(["", *lines], lines):
        title = line if not before.strip() else title
        words = [word.strip('"') for word in re.findall(r'"[^"]*"|[^:]+', line)]
        if words[:1] == ["x509_verify"] and words[-1] == "NULL":
            end, anchors, _, host, result, flags = words[1:7]
            why = f"{title}: {flags} {'' if host == 'NULL' else 'host name'}"
        elif words[:1] == ["mbedtls_x509_crt_verify_chain"]:
            end, anchors, flags, result = words[1:5]
            why = f"{title}: {flags}"
        else:
            continue
        if all((tests / it).exists() for it in f"{end} {anchors}".split()):
            (end, *between), anchors = (of_files(tests, it.split()) for it in (end, anchors))
            yield Test("mbedTLS", title, end, between, anchors, seconds(2023, 4), None,
                       result == "0", why)


def botan(top):
    data = top / "src" / "tests" / "data" / "x509"

    def expected(folder, sign=":"):
        for line in (data / folder / "expected.txt").read_text().splitlines():
            name, found, words = line.strip().partition(sign)
            if found and not name.startswith("#"):
                yield name, words, words == "Verified" or words.startswith("Warning")

    for name, why, good in expected("x509test"):
        end, *between = of_file(data / "x509test" / name)
        anchors = of_file(data / "x509test" / "root.pem")
        yield Test("Botan, x509test", name, end, between, anchors, seconds(2016, 10, 21),
                   "serverAuth", good, why)
    for folder, moment, sign in (
        ("nist", seconds(2018, 4), ":"), ("extended", seconds(2017, 9), ":"),
        ("bsi", seconds(2017, 8, 19), "$"), ("pss_certs", None, ":"),
    ):
        for name, why, good in expected(folder, sign):
            paths = sorted((data / folder / name).rglob("*.crt"))
            ends = [path for path in paths if path.name == "end.crt" or ".TC." in path.name]
            roots = [path for path in paths if path.name == "root.crt" or ".TA." in path.name]
            if folder == "nist":
                roots = [data / folder / "root.crt"]
            elif folder == "extended":
                roots = [path for path in paths if path not in ends]
            lists = any((data / folder / name).rglob("*.crl"))
            if not ends or not roots or (folder == "pss_certs" and lists):
                continue  # a certificate, or a list of what is revoked, by itself
            between = of_files(data, [path for path in paths if path not in ends + roots])
            yield Test(f"Botan, {folder}", name, of_file(ends[0])[0], between,
                       of_files(data, roots), moment, None, good,
                       f"{why} {name}{' CRL' if lists else ''}")


def heimdal(top):
    """Reads PKITS, whose certificates are in a folder beside the sources."""
    certs = top.parent / "pkits" / "certs"
    names = {path.name: of_file(path)[0] for path in sorted(certs.glob("*.crt"))}
    anchor, why = names.pop("TrustAnchorRootCertificate.crt"), ""
    for line in (top / "lib" / "hx509" / "data" / "nist-data2").read_text().splitlines():
        why = line.lstrip("# ") if line.startswith("#") else why
        status, _, name = line.partition(" ")
        if name.strip() in names:
            end, between = names[name.strip()], list(names.values())
            yield Test("Heimdal, PKITS", name.strip(), end, between, [anchor],
                       seconds(2008, 5, 20), None, status == "0", why)


def go(top):
    text = (top / "src" / "crypto" / "x509" / "verify_test.go").read_text()
    given = {name: of_text(body) for name, body in
             re.findall(r"^(?:const|var) (\w+) = `(.*?)`", text, re.S | re.M)}
    table = text[text.index("verifyTests = ") : text.index("\nfunc expect")]
    for row in re.findall(r"\n\t\{\n(.*?)\n\t\},", table, re.S):
        fields = dict(re.findall(r"^\t\t(\w+): +(.*?),?$", row, re.M))

        def listed(field):
            words = re.findall(r"\w+", fields.get(field, "").removeprefix("[]string"))
            return [it for word in words for it in given.get(word, [])]

        usage = re.findall(r"ExtKeyUsage\w+", fields.get("keyUsages", "").partition("{")[2])
        purpose = PURPOSES.get(usage[0]) if usage else "serverAuth"
        why = fields.get("errorCallback", "")
        yield Test("Go", fields.get("name", fields["leaf"]).strip('"'), listed("leaf")[0],
                   listed("intermediates"), listed("roots"), int(fields["currentTime"]), purpose,
                   not why, why)


READERS = {
    "openssl": (openssl, 150), "gnutls28": (gnutls, 80), "mbedtls": (mbedtls, 130),
    "botan": (botan, 250), "heimdal": (heimdal, 140), "golang-1.19": (go, 25),
}


def packed(folder, package):
    return next(folder.glob(f"{package}_*.orig.tar.?z"))


def fetch(folder):
    """Fetches the sources that are missing."""
    (folder / "lists/partial").mkdir(parents=True, exist_ok=True)
    parts = "debian bookworm", "debian-security bookworm-security"
    rows = "".join(f"deb-src http://deb.debian.org/{part} main\n" for part in parts)
    (folder / "sources.list").write_text(rows)
    apt = ["apt-get", "-qq"]
    for setting in (f"Dir::Etc::SourceList={folder}/sources.list", "APT::Sandbox::User=root",
                    "Dir::Etc::SourceParts=/dev/null", f"Dir::State::Lists={folder}/lists"):
        apt += ["-o", setting]

    def run(*words):
        subprocess.run(words, cwd=folder, check=True)

    missing = [package for package in READERS if not (folder / package).is_dir()]
    if missing:
        run(*apt, "update")
        run(*apt, "source", "--download-only", "--tar-only", *missing)
    for package in missing:
        new = folder / f"{package}.new"
        new.mkdir(exist_ok=True)
        run("tar", "-xf", packed(folder, package), "-C", new, "--strip-components=1")
        new.rename(folder / package)
    if not (folder / "pkits").is_dir():
        run("unzip", "-q", "heimdal/lib/hx509/data/PKITS_data.zip", "-d", "pkits")


def read_all(folder):
    """Returns all tests, and the version of each project."""
    tests, versions = [], {}
    for package, (reader, least) in READERS.items():
        found = list(reader(folder / package))
        if len(found) < least:
            raise ValueError(f"{package}: only {len(found)} of at least {least} chains were parsed")
        version = packed(folder, package).name.partition("_")[2].partition(".orig")[0]
        versions[found[0].suite.partition(",")[0]] = version
        tests += found
    return tests, versions


def purposes(octets):
    """Returns the purposes that a certificate lists."""
    with contextlib.suppress(Exception):  # none is listed, or it isn't read
        extensions = x509.load_der_x509_certificate(octets).extensions
        usage = extensions.get_extension_for_class(x509.ExtendedKeyUsage).value
        return [one.dotted_string for one in usage]
    return []


def purpose_of(way):
    """Returns a purpose that all certificates allow, or else one of the last certificate."""
    listed = [found for found in map(purposes, way) if found]
    each = [one for one in (listed or [[]])[-1] if all(one in found for found in listed)]
    return (each or purposes(way[-1]) or ["anyExtendedKeyUsage"])[0]


# The verdicts of cert_tool.

WAYS, DEPTH = 40, 10

# The words of suites for reasons that are rules of cert_tool. It is an error if such a chain is
# trusted, unless an anchor breaks the rule.
WITHIN = re.compile(
    r"CERT_(EXPIRED|NOT_ACTIVATED|SIGNER_NOT|PURPOSE|UNKNOWN_CRIT|SIGNATURE)|"
    r"BADCERT_(EXPIRED|FUTURE|NOT_TRUSTED|EXT_KEY|NS_CERT)|"
    r"expect(Expired|Usage|AuthorityUnknown|UnhandledCritical|NotAuthorized)|"
    r"[Ss]ignature error|Certificate (has expired|is not yet)|issuer not found|issue certs|"
    r"chain too long|[Ii]nvalid signature|not(Before|After) date|do not chain|cA (is )?false|"
    r"keyCertSign|pathLen|unrecognized critical|[Uu]nknown critical"
)

# What suites test and cert_tool doesn't: the class, and the words of suites.
LOOSER = {
    "revocation": r"CRL|cRLSign|[Rr]evo[ck]|REVOKED|on hold|can not be determined",
    "host names": r"host name|does not match provided name|expectHostnameError",
    "policies": r"[Pp]olic",
    "name constraints": r"[Nn]ame ?[Cc]onstraint|type confusion|Too many names",
    "strength": r"auth level|INSECURE_ALGORITHM|BAD_(MD|PK|KEY)|too weak|verify_depth|"
                r"rsa pss: chain with (sha1|diff)",
    "trust settings of OpenSSL": r"with trust settings",
    "strict mode": r"x509_strict|VERIFY_DO_NOT_ALLOW_SAME",
    "key usage of the end entity": r"does not allow the requested usage",
    "key of the end entity": r"explicit curve leaf",
    "versions": r"with version that does not allow it",
    "anchors": r"(?!)",
}
# Why chains are rejected that suites trust: the class, and what cert_tool reports.
STRICTER = {
    "critical extensions": r"UnweighedCritical",
    "the end entity is an anchor": r"WrongIssuer.*is an anchor itself",
    "names that differ in bytes": r"WrongIssuer.*names that differ",
    "algorithms": r"WrongSignature.*no answer",
    "not a CA": r"NotAuthority",
    "not DER": r"(fault|MalformedExtension|anchors)",
}
# The limits of --strict (docs/CLI.md).
LIMITS = ["WrongKeyUsage", "ConstrainedNames"] + [f"Anchor{it}" for it in (
    "ConstrainedNames", "Expired", "NotYetValid", "NotAuthority", "PathTooLong", "AgainstPurpose",
    "UnweighedCritical", "MalformedExtension", "DuplicateExtension",
)]


def text_of(tag, contents, _):
    """Returns the text of an attribute's value, without upper case and repeated blanks."""
    coding = {0x1E: "utf-16-be", 0x1C: "utf-32-be", 0x0C: "utf-8"}.get(tag, "latin-1")
    return " ".join(contents.decode(coding, "replace").casefold().split())


def name_of(contents):
    """Prepares a name for comparison, as loosely as RFC 5280 7.1 allows."""
    found = []
    for _, rdn, _ in values(contents):
        members = [list(values(member)) for _, member, _ in values(rdn)]
        found.append(frozenset((kind[1], text_of(*value)) for kind, value in members))
    return tuple(found)


class Certificate:
    """A certificate in DER, with its names and its dates in seconds if they can be read."""

    def __init__(self, octets):
        self.octets = octets
        self.issuer = self.subject = self.dates = None
        try:
            signed = next(values(next(values(octets))[1]))[1]
            fields = [contents for tag, contents, _ in values(signed) if tag != 0xA0]
            self.issuer, self.subject = name_of(fields[2]), name_of(fields[4])
            dates = (moment(*date[:2]) for date in values(fields[3]))
            self.dates = [seconds(*map(int, re.findall(r"^....|..", date))) for date in dates]
        except (IndexError, ValueError, StopIteration):
            pass


certificate = functools.cache(Certificate)


def is_anchored(test, way):
    """Returns whether a path begins below an anchor, by names."""
    return any(way[0].issuer == certificate(octets).subject for octets in test.anchors)


def ways(test):
    """Returns each path from an anchor to the end-entity certificate, or else the longest one."""
    between = [certificate(octets) for octets in dict.fromkeys(test.between)]
    end = certificate(test.end)
    found, longest, todo = [], [end], [[end]]
    while todo and len(found) < WAYS:
        way = todo.pop()
        longest = max(longest, way, key=len)
        if is_anchored(test, way):
            found.append(way)
        if len(way) < DEPTH:
            todo += [[it, *way] for it in between if it.subject == way[0].issuer and it not in way]
    return found or [longest]


@functools.cache
def refusal(line):
    """Returns why examples/answer.py doesn't answer a question with yes, or None."""
    return answer.refusal(line.encode())


def terms(tool, test, way):
    """Returns the arguments and the files of a chain, and why questions have no answer."""
    moment = test.moment
    if moment is None:  # one at which all are valid, where there is one
        moment = max([it.dates[0] for it in way if it.dates] or [0])
    inputs = {"anchors": b"".join(test.anchors), "chain": b"".join(it.octets for it in way)}
    asked = tool.ask(["questions", "--anchors", "anchors", "chain"], inputs)[1].decode()
    answers = [line for line in asked.splitlines() if refusal(line) is None]
    inputs["answers"] = "".join(f"{line}\n" for line in answers).encode()
    words = ["--anchors", "anchors", "--answers", "answers", "--at", str(max(moment, 0))]
    purpose = test.purpose or purpose_of([it.octets for it in way])
    refused = "; ".join(filter(None, map(refusal, asked.splitlines())))
    return [*words, "--purpose", purpose, "chain"], inputs, refused


def broken(tool, words, inputs, place):
    """Returns the rules that a certificate of a chain breaks, and how."""
    found = tool.ask(["explain", "chain", "--json", *words], inputs)[1]
    for finding in json.loads(found)["findings"] if found else []:
        if finding.get("certificate") == place and "findings" in finding:
            return {it["rule"]: it["reason"] for it in finding["findings"] if "rule" in it}
    return {}


def verdict(tool, test, way):
    """Returns the line of `verify` with what explains it, and the limit that a trusted chain breaks
    with --strict: "" if it breaks none."""
    words, inputs, refused = terms(tool, test, way)

    def first_line(*more):
        _, output, errors = tool.ask(["verify", *words, *more], inputs)
        return (output + errors).decode().partition("\n")[0]

    line, strict = first_line(), first_line("--strict")
    limit = "" if line == strict else strict.split()[2]
    if limit and not (line.startswith("trusted") and limit in LIMITS):
        raise ValueError(f"{line}; with --strict: {strict}")
    if line.startswith("refused"):
        place, rule = line.split()[1:3]
        line += f": {rule}: {broken(tool, words, inputs, int(place)).get(rule, '')}"
        line += f" {refused}" if rule == "WrongSignature" else ""
    return line, limit


Judged = collections.namedtuple("Judged", "test line kind limit")


def judged(tool, test):
    """Runs a test. Returns the verdict, whether it agrees or the class of the difference, and the
    limit that a trusted chain breaks with --strict, or "", or None for a rejected chain."""
    tried = [(*verdict(tool, test, way), way) for way in ways(test)]
    trusted = [each for each in tried if each[0].startswith("trusted")]
    if trusted:
        kinds = ["agrees"] if test.good else [looser(tool, test, way) for *_, way in trusted]
        limit = "" if "" in (it[1] for it in trusted) else trusted[0][1]
        return Judged(test, trusted[0][0], next(filter(None, kinds), None), limit)
    line, _, way = tried[0]
    if not test.good:
        return Judged(test, line, "agrees", None)
    if "WrongIssuer" in line and test.end in test.anchors:
        line += " the end is an anchor itself"
    elif "WrongIssuer" in line and is_anchored(test, way) and all(
        below.issuer == it.subject for it, below in zip(way, way[1:])
    ):
        line += " names that differ in their octets alone"
    said = re.sub(r"^refused \d+ ", "", line)
    kind = next((it for it in STRICTER if re.match(STRICTER[it], said)), None)
    return Judged(test, line, kind, None)


def looser(tool, test, way):
    """Returns the class of a chain that is trusted and that its suite rejects, or None."""
    if not WITHIN.search(test.why):
        for kind, words in LOOSER.items():
            if re.search(words, test.why):
                return kind
    for anchor in map(certificate, test.anchors):
        if anchor.subject == way[0].issuer:
            words, inputs, _ = terms(tool, test, [anchor, *way])
            if broken(tool, words, inputs, 0).keys() - {"WrongIssuer", "WrongSignature"}:
                return "anchors"
    return None


# The page.


def table(heads, rows):
    first, *others = [f"| {' | '.join(map(str, it))} |".replace("  ", " ") for it in [heads, *rows]]
    return "\n".join([first, "|---" * len(heads) + "|", *others, ""])


def tables(all_judged, versions):
    """Yields the tables of the page: by suite, by class, by suite with --strict, and by limit."""
    counts, strict = (collections.defaultdict(collections.Counter) for _ in range(2))
    for one in all_judged:
        agrees, good, is_strict = one.kind == "agrees", one.test.good, one.limit == ""
        found = [True, good, agrees, not agrees and not good, not agrees and good]
        by_limits = [one.limit is not None, is_strict, good == is_strict, is_strict and not good,
                     good and not is_strict]
        for suite in one.test.suite, "all":
            counts[suite].update(dict(enumerate(found)))
            strict[suite].update(dict(enumerate(by_limits)))
    heads = ["Suite", "Version", "Chains", "Suite trusts", "Same result", "Only Wurstdrape trusts",
             "Only the suite trusts"]
    versions["all"] = ""
    suites = [*dict.fromkeys(one.test.suite for one in all_judged), "all"]
    yield table(heads, [[suite, versions[suite.partition(",")[0]], *counts[suite].values()]
                        for suite in suites])

    def which(found):
        names = collections.Counter(it.test.suite.replace(", ", "/") for it in found)
        return "; ".join(f"{it} {n}" for it, n in names.items())

    rows = []
    for kind in LOOSER:
        found = [it for it in all_judged if it.kind == kind]
        kept = sum(it.limit == "" for it in found)
        rows += [[kind, len(found), kept, which(found)]] if found else []
    yield table(["Class", "Chains", "With `--strict`", "Which"], rows)
    found = [(kind, [it for it in all_judged if it.kind == kind]) for kind in STRICTER]
    rows = [[kind, len(those), which(those)] for kind, those in found if those]
    yield table(["Class", "Chains", "Which"], rows)
    heads = ["Suite", "Trusted without", "Trusted", *heads[4:]]
    yield table(heads, [[suite, *strict[suite].values()] for suite in suites])
    rows = []
    for limit in LIMITS:
        found = [it for it in all_judged if it.limit == limit]
        good = [it for it in found if it.test.good]
        rows += [[limit, len(found) - len(good), len(good), which(good)]] if found else []
    yield table(["Check", "Suite rejects, too", "Suite trusts", "Which of these"], rows)


def main():
    parser = argparse.ArgumentParser(description=__doc__.splitlines()[0])
    parser.add_argument("program", metavar="CERT_TOOL", type=pathlib.Path)
    parser.add_argument("folder", metavar="FOLDER", nargs="?", type=pathlib.Path)
    given = parser.parse_args()
    program = given.program.resolve()
    tool = Tool(program)
    with tempfile.TemporaryDirectory() as room:
        folder = (given.folder or pathlib.Path(room)).resolve()
        fetch(folder)
        tests, versions = read_all(folder)
        all_judged = [judged(tool, test) for test in tests]
    for one in all_judged:
        if one.kind != "agrees" or one.limit:
            print(f"{one.test.suite}: {one.test.name}: {one.kind or 'NO CLASS'}: {one.line}"
                  f" {one.limit and f'--strict: {one.limit}' or ''} [{one.test.why.strip()}]")
    missing = sum(one.kind is None for one in all_judged)
    version = tool.ask(["--version"], {})[1].decode().strip()
    if "\n## Unreleased\n" in (TOP / "CHANGELOG.md").read_text():
        version += " with the changes since"
    version += ", built by `rt`" if program.parent.name == "out" else ", built without proofs"
    told, page = tables(all_judged, versions), HERE / "SUITES.md"
    text = re.sub(r"(^\|.*\n)+", lambda _: next(told), page.read_text(), flags=re.M)
    when = f"({datetime.date.today()}, {version})"
    page.write_text(re.sub(r"\(\d{4}-\d\d-\d\d, [^)]*\)", lambda _: when, text, count=1))
    print(f"{len(all_judged)} chains, {missing} differences without a class")
    return missing > 0


if __name__ == "__main__":
    sys.exit(main())
