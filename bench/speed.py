#!/usr/bin/env python3
"""Measures what decoding, validating, encoding and printing cost, and writes bench/SPEED.md.

    bench/speed.py [--programs FOLDER] [--built CLONE] [PART...]

Each PART prints what it counts. A run of all parts writes the page and bench/speed.txt:

  roots    decodes the roots of ca-certificates with x509_cert and with mbedTLS, encodes them again,
           decodes their extensions, decodes them into a bundle and validates each below itself, and
           checks their headers with a plain C loop (walk.c)
  chains   validates a chain of four that OpenSSL makes (three CAs and a server below an RSA root,
           the anchor), with `check` and with mbedTLS; on both sides, every signature is accepted
  show     prints the roots with cert_desk_listing and with OpenSSL, which prints the same parts
  tool     runs `cert_tool` and `cert_desk`: describe and show each root, verify and check a chain
  pieces   reads a stream of 10,000 certificates in one piece, in pieces of 1,000 bytes and byte by
           byte, compared with a program that keeps the certificates with a copy of their bytes
  messages decodes OCSP requests and responses, signed messages, keys and timestamps, which OpenSSL
           makes, with the crates pki_* and with OpenSSL

valgrind counts (bench/README.md). A program of bench/PART is proved and built in a copy of the
crates, which takes the libraries that CLONE has built (`out/rlib`); `cert_tool` and
`cert_desk_program` are those of `out/`. FOLDER may have any of these programs instead.
"""

import argparse
import datetime
import os
import pathlib
import re
import shutil
import subprocess
import sys
import tempfile
import time

HERE = pathlib.Path(__file__).resolve().parent
TOP = HERE.parent
sys.path[:0] = [str(TOP / "tools"), str(TOP / "tests/asn1")]

import needs
import release

PAGE = HERE / "SPEED.md"
ROOTS = pathlib.Path("/usr/share/ca-certificates/mozilla")

# The tables of the page. Each row has a task, the name of its count, what it is compared with, the
# name of that count (or a number), and the target, if there is one: the greatest ratio wanted.
OTHERS = (
    ("decode a root, with the extensions that the rules use", "x509_cert, extensions decoded",
     "mbedTLS", "mbedTLS, decoded", 0),
    ("decode a root, without its extensions", "x509_cert, decoded", "mbedTLS", "mbedTLS, decoded",
     0.65),
    ("validate a chain of four", "cert_desk_checking", "mbedTLS", "mbedTLS", 0.5),
    ("decode and print a root", "cert_desk_listing", "OpenSSL", "OpenSSL", 0),
)
EARLIER = (
    ("encode a root", "encoded", "version 0.10.0", 11942, 0.75),
    ("`cert_desk show` of a root", "show", "version 0.10.0", 52217, 0.5),
    ("`cert_tool describe` of a root", "describe", "version 0.10.0", 325328, 0.5),
    ("decode a root into a `Bundle`, and validate it", "bundle, decoded and validated",
     "decoding a root", "x509_cert, decoded", 1.34),
    ("`cert_tool verify` of a chain of four", "verify", "`cert_desk check`", "check", 1.3),
)
# What version 1.0.0 took: the task, the name of its count, and the instructions and allocations.
RELEASED = (
    ("decode a root", "x509_cert, decoded", (9234, 9.35)),
    ("decode a root, with the extensions that the rules use", "x509_cert, extensions decoded",
     (11897, 9.42)),
    ("encode a root", "encoded", (8662, 1)),
    ("decode a root into a `Bundle`, and validate it", "bundle, decoded and validated",
     (11903, 11.39)),
    ("validate a chain of four", "cert_desk_checking", (5489, 2)),
    ("decode and print a root", "cert_desk_listing", (25847, 10.38)),
    ("`cert_desk show` of a root", "show", (35031, 13.38)),
    ("`cert_tool describe` of a root", "describe", (59723, 33.18)),
    ("`cert_desk check` of a chain of four", "check", (184959, 72)),
    ("`cert_tool verify` of a chain of four", "verify", (217422, 112)),
)

# What the part `messages` decodes: the kind, and the name of a file of tests/asn1/by_openssl.py.
MESSAGES = (
    ("decode an OCSP request for three certificates", "request", "request_nonce"),
    ("decode an OCSP response with a certificate", "response", "response_name"),
    ("decode a signed message with two certificates", "message", "signed"),
    ("decode a private key", "key", "key"),
    ("decode a timestamp response with a certificate", "timestamp", "timestamp"),
)


def said(*words, **how):
    """Returns what a command prints."""
    words = [str(it) for it in words]
    how = {"stdout": subprocess.PIPE, "stderr": subprocess.DEVNULL, "check": True, **how}
    return subprocess.run(words, **how).stdout


def told_by(pattern, *words):
    """Returns the number that valgrind, or time, prints to the error output."""
    ran = subprocess.run([str(it) for it in words], stdout=subprocess.DEVNULL,
                         stderr=subprocess.PIPE, text=True)
    found = re.search(pattern, ran.stderr)
    return int(found[1].replace(",", "")) if found else sys.exit(ran.stderr)


def instructions(*command):
    callgrind = "valgrind", "--tool=callgrind", "--callgrind-out-file=/dev/null"
    return told_by(r"Collected : (\d+)", *callgrind, *command)


def wants(*command):
    return told_by(r"total heap usage: ([\d,]+) allocs", "valgrind", *command)


def peak(*command):
    """Returns the most kilobytes that a run used."""
    return told_by(r"(\d+)\s*$", "/usr/bin/time", "-f", "%M", *command)


class Bench:
    """The programs, a folder for work, and what was counted by its name."""

    def __init__(self, work, programs, built):
        self.work, self.programs, self.built = pathlib.Path(work), programs, built
        self.counts, self.lines = {}, []

    def say(self, line):
        print(line, flush=True)
        self.lines.append(line)

    def program(self, name, folder=None, libraries=""):
        """Returns a program by its name. One of bench/FOLDER uses these libraries."""
        if self.programs and (self.programs / name).is_file():
            return (self.programs / name).resolve()
        if folder is None:
            return TOP / "crates" / name / "out" / name
        crates = self.work / "crates"
        if not crates.is_dir():
            left = shutil.ignore_patterns("out", "must-fail")
            shutil.copytree(TOP / "crates", crates, ignore=left)
            shutil.copy(TOP / "crates.txt", self.work)
            said("git", "init", "-q", self.work)
            stamps = release.stamps(self.built) if self.built else {}
            for made in self.built.glob("crates/*/out/rlib") if self.built else ():
                place = crates / made.parts[-3] / "out/rlib"
                shutil.copytree(made, place, copy_function=os.link)
                # `rt ci` leaves none, and `rt run` takes no library without one.
                if not (place / "stamp").exists():
                    (place / "stamp").write_text(stamps[made.parts[-3]])
        crate = crates / name
        (crate / "src").mkdir(parents=True)
        (crate / "specs").mkdir()
        (crate / "specs/Lib.antt").touch()
        shutil.copy(HERE / folder / "main.rt.txt", crate / "src/main.rt")
        with open(self.work / "crates.txt", "a") as listed:
            print(f"{name}: {libraries}", file=listed)
        ran = subprocess.run(["rt", "run"], cwd=crate, capture_output=True, text=True)
        if ran.returncode:
            sys.exit("".join((ran.stdout + ran.stderr).splitlines(True)[-20:]))
        return crate / "out" / name

    def compiled(self, source, *flags):
        program = self.work / source.replace("/", "_").removesuffix(".c")
        said("gcc", "-O2", "-o", program, HERE / source, *flags)
        return program

    def roots(self):
        """Returns a file of all roots, and their number."""
        files = sorted(ROOTS.glob("*.crt"))
        der = [said("openssl", "x509", "-in", it, "-outform", "DER") for it in files]
        (self.work / "roots.der").write_bytes(b"".join(der))
        return self.work / "roots.der", len(files)

    def count(self, name, count, command, many=10):
        """Counts what one of `count` values costs. The rounds replace None in the command."""
        def rounds(number):
            return [number if word is None else word for word in command]

        spent = instructions(*rounds(many + 1)) - instructions(*rounds(1))
        asked = wants(*rounds(many + 1)) - wants(*rounds(1))
        found = self.counts[name] = spent // (many * count), asked / (many * count)
        self.say(f"{name}: {found[0]} instructions, {found[1]:.2f} allocations")


def roots(bench):
    reads = bench.program("root_reads", "roots", "x509_cert der_core")
    uses = bench.program("root_uses", "roots_used", "x509_cert der_core")
    checks = bench.program("root_checks", "roots_checked", "cert_desk x509_cert der_core const_oid")
    mbedtls = bench.compiled("roots/mbedtls.c", "-lmbedx509", "-lmbedcrypto")
    walk = bench.compiled("walk.c")
    file, count = bench.roots()
    bench.say(f"{count} roots")
    for name, *command in (
        ("x509_cert, decoded", reads),
        ("x509_cert, decoded by the program that encodes", uses, "read"),
        ("x509_cert, decoded and encoded", uses, "write"),
        ("x509_cert, extensions decoded", uses, "weigh"),
        ("bundle, decoded", checks, "read"),
        ("bundle, decoded and validated", checks, "check"),
        ("mbedTLS, decoded", mbedtls),
        ("headers in C", walk),
    ):
        bench.count(name, count, [*command, file, None])
    read, written, lent = (
        bench.counts[f"x509_cert, decoded{it}"]
        for it in ("", " and encoded", " by the program that encodes")
    )
    bench.counts["encoded"] = written[0] - lent[0], written[1] - read[1]
    bench.say(f"roots, and how many differ: {said(uses, 'write', file, 1).decode().strip()}")
    rejected = said(uses, "weigh", file, 1).decode().strip()
    bench.say(f"roots, and how many have an extension that is rejected: {rejected}")


def chains(bench):
    program = bench.program("chain_judged", "chains", "cert_desk x509_cert const_oid")
    mbedtls, work = bench.compiled("chains/mbedtls.c", "-lmbedx509", "-lmbedcrypto"), bench.work

    def certify(name, issuer, key, *extensions):
        words = ["openssl", "req", "-x509", "-newkey", *key, "-nodes", "-config", "/dev/null"]
        words += ["-keyout", f"{name}.key", "-out", f"{name}.pem", "-days", "3650"]
        words += ["-subj", f"/C=US/O=Desk Example/CN={name}"]
        words += ["-CA", f"{issuer}.pem", "-CAkey", f"{issuer}.key"] if issuer else []
        said(*words, *(word for it in extensions for word in ("-addext", it)), cwd=work)
        return said("openssl", "x509", "-in", f"{name}.pem", "-outform", "DER", cwd=work)

    authority = "basicConstraints=critical,CA:true", "keyUsage=critical,keyCertSign,cRLSign"
    curve = "ec", "-pkeyopt", "ec_paramgen_curve:prime256v1"
    (work / "root.der").write_bytes(certify("root", None, ["rsa:2048"], *authority))
    names = ["root", "first", "second", "third"]
    chain = [certify(it, above, curve, *authority) for above, it in zip(names, names[1:])]
    chain.append(certify(
        "server", "third", curve, "basicConstraints=critical,CA:false",
        "keyUsage=critical,digitalSignature", "extendedKeyUsage=serverAuth",
        "subjectAltName=DNS:desk.example,DNS:www.desk.example"))
    (work / "chain.der").write_bytes(b"".join(chain))
    given = int(time.time()), work / "root.der", work / "chain.der"
    bench.say(said(program, 1, *given).decode().strip())
    bench.count("cert_desk_checking", 1, [program, None, *given], 100)
    pem = [work / f"{it}.pem" for it in ("root", "server", "third", "second", "first")]
    bench.count("mbedTLS", 1, [mbedtls, None, *pem], 100)


def show(bench):
    program = bench.program("root_listings", "show", "cert_desk der_core")
    openssl = bench.compiled("show/openssl.c", "-lcrypto")
    file, count = bench.roots()
    ours, theirs = said(program, file, 1), said(openssl, file, 1)
    bench.say(f"{count} roots, {len(ours)} bytes of listings")
    bench.count("cert_desk_listing", count, [program, file, None])
    bench.count("OpenSSL", count, [openssl, file, None])
    # The same names, in the same order, as OpenSSL prints them.
    ours = re.findall(rb"(?m)^(issuer|subject) (.*)", ours)
    theirs = re.findall(rb"(?m)^(issuer|subject)=(.*)", theirs)
    differ = sum(one != other for one, other in zip(ours, theirs, strict=True))
    bench.say(f"names that OpenSSL prints differently: {differ}")


def tool(bench):
    desk, tool = bench.program("cert_desk_program"), bench.program("cert_tool")

    def less_a_start(program, *words):
        """Returns the instructions of a run, and its allocations less those of a start."""
        return instructions(program, *words), wants(program, *words) - wants(program, "nothing")

    starts = [instructions(it, "nothing") for it in (tool, desk)]

    def told(what, other, one, two, per):
        """Prints what two runs cost, and stores it less their starts."""
        bench.say(f"{what}: {one[0]} instructions{per}, {other}: {two[0]}: {one[0] / two[0]:.2f}")
        less = [run[0] - start for run, start in zip((one, two), starts)]
        bench.say(f"less a run that ends at a wrong argument ({starts[0]}, {starts[1]}): "
                  f"{less[0]}, {less[1]}: {less[0] / less[1]:.2f}")
        bench.say(f"allocations less that: {one[1]:g}, {two[1]:g}")
        bench.counts[what], bench.counts[other] = (less[0], one[1]), (less[1], two[1])

    described, shown = [], []
    for path in sorted(ROOTS.glob("*.crt")):
        root = bench.work / "root.der"
        root.write_bytes(said("openssl", "x509", "-in", path, "-outform", "DER"))
        described.append(less_a_start(tool, "describe", "certificate", root))
        shown.append(less_a_start(desk, "show", "certificate", root))
    one, two = ([sum(it) / len(runs) for it in zip(*runs)] for runs in (described, shown))
    told("describe", "show", (int(one[0]), round(one[1], 2)), (int(two[0]), round(two[1], 2)),
         f" a root of {len(shown)}")
    # The second order once more, without its path length.
    orders = (TOP / "examples/orders.txt").read_text().rstrip().split("\n\n")
    more = orders[1].replace("\npath 0", "").replace("Intermediate", "Authority")
    orders.insert(1, more.replace("serial 02", "serial 03"))
    files = [bench.work / name for name in ("orders", "stream", "anchor", "answers")]
    files[0].write_text("\n\n".join(orders) + "\n\n")
    files[1].write_bytes(said(desk, "issue", files[0]))
    first = "openssl", "x509", "-inform", "DER", "-in", files[1], "-outform", "DER"
    files[2].write_bytes(said(*first))
    files[3].write_bytes(said(tool, "questions", "--anchors", files[2], files[1]))
    words = "verify", "--anchors", files[2], "--answers", files[3], "--at", 1790000000, files[1]
    checks = "check", files[2], files[1], 1790000000, "1.3.6.1.5.5.7.3.1", 4096
    for line in said(tool, *words), said(desk, *checks):
        bench.say(line.decode().strip())
    told("verify", "check", less_a_start(tool, *words), less_a_start(desk, *checks), "")


def pieces(bench):
    program = bench.program("piece_reads", "pieces", "cert_desk x509_cert der_core")
    half, whole = bench.work / "half.der", bench.work / "all.der"
    half.write_bytes((TOP / "examples/trusted.der").read_bytes() * 5000)
    whole.write_bytes(half.read_bytes() * 2)
    none, all_at_once, one_piece = instructions(program, "none", half), None, 10**9
    for size, name in (one_piece, "in one piece"), (1000, "in pieces of 1000"), (1, "one by one"):
        first, both = (instructions(program, size, file) for file in (half, whole))
        all_at_once = all_at_once or both - none
        bench.say(f"{name}: {(first - none) // 5000} instructions a certificate of the first 5000, "
                  f"{(both - first) // 5000} of the next 5000, {(both - none) / all_at_once:.2f} "
                  "times those in one piece")
    start = peak(program, "none", whole)
    kept, *fed = (peak(program, it, whole) - start for it in ("keep", one_piece, 1000, 1))
    bench.say(f"memory: {kept} kB for certificates and bytes alone, {fed[0]} for a bundle fed in "
              f"one piece, {fed[1]} in pieces of 1000 bytes, {fed[2]} byte by byte")
    bench.counts["kept"], bench.counts["fed"] = (kept, None), (max(fed), None)


def messages(bench):
    import by_openssl

    libraries = "pki_timestamps pki_cms pki_ocsp pki_key_containers der_core"
    program = bench.program("message_reads", "messages", libraries)
    wrapped = "-Wl,--wrap=OSSL_DECODER_CTX_new_for_pkey", "-l:libcrypto.a"
    openssl = bench.compiled("messages/openssl.c", *wrapped)
    folder = bench.work / "messages"
    folder.mkdir()
    by_openssl.make(folder)
    for _, kind, name in MESSAGES:
        file = folder / name
        ours, theirs = (said(it, kind, file, 1).decode().strip() for it in (program, openssl))
        bench.say(f"{name}: {file.stat().st_size} bytes, decoded: {ours}, OpenSSL: {theirs}")
        bench.count(f"{name}, pki", 1, [program, kind, file, None])
        bench.count(f"{name}, OpenSSL", 1, [openssl, kind, file, None])
        bench.count(f"{name}, OpenSSL with keys", 1, [openssl, kind, file, None, "keys"])


PARTS = {it.__name__: it for it in (roots, chains, show, tool, pieces, messages)}


def cells(count):
    """Returns the cells of a count: instructions, and allocations if they are counted."""
    return f"{count[0]:,} | " + ("" if count[1] is None else f"{count[1]:,.2f}")


def page(bench):
    def first_line(*words):
        return said(*words, check=False, cwd=TOP).decode().partition("\n")[0]

    commit = first_line("git", "log", "-1", "--format=%h", "--", "crates")
    kit = first_line("rt", "version").partition(" ")[0]
    mbedtls = first_line("dpkg-query", "-W", "-f", "${Version}\n", "libmbedtls-dev")
    openssl = first_line("openssl", "version").split(" ")[1]
    kept, fed = (bench.counts[it][0] for it in ("kept", "fed"))
    ratios, missed, pair = {}, [], "Instructions | Allocations"

    def table(rows):
        yield f"| Task | {pair} | Compared with | {pair} | Ratio | Target | Met |"
        yield "|---|---|---|---|---|---|---|---|---|"
        for task, name, beside, other, most in rows:
            one, two = bench.counts[name], bench.counts.get(other) or (other, None)
            ratios[name] = one[0] / two[0]
            met = "yes" if ratios[name] <= most else "**no**" if most else ""
            missed.extend([task] if "no" in met else [])
            row = task, cells(one), beside, cells(two), f"{ratios[name]:.3f}", str(most or ""), met
            yield f"| {' | '.join(row)} |"

    others, earlier = ("\n".join(table(rows)) for rows in (OTHERS, EARLIER))
    tasks = "one task" if len(missed) == 1 else f"{len(missed)} tasks"
    targets = f"{tasks} missed the target (**no** in the tables): {', '.join(missed)}"
    targets = targets if missed else "all tasks met them"
    whole, alone, chain, shown = (f"{100 - 100 * ratios[row[1]]:.0f} %" for row in OTHERS)
    released = "\n".join(
        f"| {task} | {cells(bench.counts[name])} | {cells(before)} | "
        f"{bench.counts[name][0] / before[0]:.3f} |" for task, name, before in RELEASED)
    messages, times = [], []
    for task, _, name in MESSAGES:
        counts = [bench.counts[f"{name}, {it}"] for it in ("pki", "OpenSSL", "OpenSSL with keys")]
        times.append(counts[0][0] / counts[1][0])
        columns = task, cells(counts[0]), cells(counts[1]), f"{times[-1]:.3f}", cells(counts[2])
        messages.append(f"| {' | '.join(columns)} |")
    messages = "\n".join(messages)
    least, most = (f"{100 - 100 * it:.0f} %" for it in (max(times), min(times)))
    return f"""# Speed

This page compares how many instructions Wurstdrape and other software execute for the same task. It
has no seconds, because these depend on the machine.

These figures are those of [commit {commit}](#how-this-was-measured), and not of later changes:

- **Decoding** a root certificate, with the extensions that the rules use, took {whole} fewer
  instructions than with mbedTLS, which decodes all extensions. Without the extensions it took
  {alone} fewer, but then the two do different work.
- **Validating** a chain of four certificates took {chain} fewer instructions than with mbedTLS.
  Neither side verifies signatures or computes digests.
- **Printing** a root took {shown} fewer instructions than with OpenSSL. Both print the same
  [parts](README.md#method).
- **Decoding messages, keys and timestamps** took {least} to {most} fewer instructions than with
  OpenSSL, without the public keys of certificates, which OpenSSL also
  [decodes](README.md#method).
- **Targets**: {targets}.

Wurstdrape wasn't compared with Rust crates.

A figure of a root is the mean of the roots in Debian's `ca-certificates`. A ratio is the
instructions of Wurstdrape, divided by those on the right: below 1, Wurstdrape takes fewer. An empty
cell wasn't measured, or has no target. [README](README.md#method) explains how the script counts,
and what a target is.

## Compared with other software

{others}

## Compared with OpenSSL: messages, keys and timestamps

The first pair of columns is of Wurstdrape. The second is of OpenSSL without the public keys of
certificates, and the ratio is between these two. The last pair is of OpenSSL with the keys.

| Task | {pair} | {pair} | Ratio | {pair} |
|---|---|---|---|---|---|---|---|
{messages}

## Compared with version 1.0.0

The first pair of columns is of this version, and the second of 1.0.0.
[README](README.md#what-changed-since-100) says what changed.

| Task | {pair} | {pair} | Ratio |
|---|---|---|---|---|---|
{released}

## Compared with version 0.10.0, and with itself

The last two rows compare a task with a smaller task of the same version.

{earlier}

## Memory

A bundle that has read 10,000 certificates used {fed:,} kB at most: {fed / kept:.3f} times the
{kept:,} kB that the certificates and their bytes need (target 1.06).

## How this was measured

`bench/speed.py` measured proved builds in one run on {datetime.date.today()}, and printed
[speed.txt](speed.txt). The crates were those of commit {commit}, compiled with {kit} and
LLVM. The other software was mbedTLS {mbedtls} and OpenSSL {openssl}.
"""


def main():
    form = argparse.RawDescriptionHelpFormatter
    parser = argparse.ArgumentParser(description=__doc__, formatter_class=form)
    parser.add_argument("--programs", type=pathlib.Path, metavar="FOLDER")
    parser.add_argument("--built", type=pathlib.Path, metavar="CLONE")
    parser.add_argument("parts", nargs="*", metavar="PART")
    words = parser.parse_args()
    if set(words.parts) - set(PARTS):
        parser.error(f"the parts are {', '.join(PARTS)}")
    needs.check(__file__)
    with tempfile.TemporaryDirectory() as work:
        bench = Bench(work, words.programs, words.built)
        for name in words.parts or PARTS:
            bench.say(name)
            PARTS[name](bench)
        if not words.parts:
            PAGE.write_text(page(bench))
            PAGE.with_name("speed.txt").write_text("\n".join([*bench.lines, ""]))


if __name__ == "__main__":
    main()
