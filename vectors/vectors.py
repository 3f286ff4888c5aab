#!/usr/bin/env python3
"""Test vectors for a reader and a writer of OAMD payloads (ETSI TS 103 420 clauses 5.5, 5.6, the requirements).

  python3 vectors.py              write crates/vectors/data/payloads, crates/vectors/data/written, crates/vectors/stdout
                                  and docs/VECTORS.md
  python3 vectors.py --check      write nothing; say which of these four files is not what would be written
  python3 vectors.py --show N     print the bits of vector N field by field, its expected text and its written form
  python3 vectors.py --list       print number, length in bytes and name of every vector

payloads: per vector 2 bytes big-endian length, then the payload.  written: likewise the written form of the vector's tables;
length 0 where the payload is refused, has the reserved content flag set, or has a form above 4,096 bytes.  stdout: per vector
a line vector=N, then the lines of the listing program of the requirements, then, of a payload with a trim element, its trim table,
then, of an accepted payload without that flag, the written form.  The buffers are taken to be large enough, so refusal 9 does
not occur, and 11 only above 4,096 bytes.
Nothing here decodes a payload: the expected text stands in the vectors_*.py files, derived by hand but for the missing bits of
refusal 2 and the time of each record (helpers.py); form.py writes the forms,
and written.py has some of them, and some trim tables, derived by hand.
"""
import io
import os
import sys

sys.dont_write_bytecode = True
HERE_DIR = os.path.dirname(os.path.abspath(__file__))
ROOT = os.path.dirname(HERE_DIR)
sys.path.insert(0, HERE_DIR)

import vectors_header      # noqa: E402,F401  the order of these lines is the order of the vectors
import vectors_elements    # noqa: E402,F401
import vectors_timing      # noqa: E402,F401
import vectors_object      # noqa: E402,F401
import vectors_status      # noqa: E402,F401
import vectors_extended    # noqa: E402,F401
import vectors_trim        # noqa: E402,F401
import vectors_alternate   # noqa: E402,F401
from form import form, tables_of  # noqa: E402
from helpers import VECTORS, count_, dyn_only, pack, version  # noqa: E402
from written import HAND, TABLES, check_hand, check_tables  # noqa: E402

# The programme of the vectors whose payload is given as bytes: that of the requirements' example, one dynamic object.
EXAMPLE = [version(), count_(0), dyn_only()]
EXAMPLE = [field for part in EXAMPLE for field in part]


def form_of(v):
    """The fields of the written form of a vector's tables, or None if there is none."""
    if v.expected[0] != "refusal=0":
        return None
    q, *tables = tables_of(v.fields or EXAMPLE, v.expected, v.trim)
    return form(q, *tables) if q.content < 8 else None


def written_of(v):
    """The bytes of the written form, of whatever length; none if there is no form."""
    fields = form_of(v)
    return pack(fields, 0)[0] if fields else b""


def read_lines(v):
    return v.expected + (["trim=" + v.trim.hex()] if v.trim else [])


def written_lines(v):
    form_ = written_of(v)
    if not form_:
        return []
    if len(form_) > 4096:
        return ["written refusal=11 place=%d" % len(form_)]
    return ["written=" + form_.hex(), "read back=1"]


def show(n):
    v = VECTORS[n]
    print("vector %d: %s" % (n, v.name))
    print("exercises: %s" % v.exercises)
    print("how: %s" % v.how)
    print("%d bytes%s: %s" % (len(v.bytes), "" if v.whole == len(v.bytes) else " (cut from %d)" % v.whole,
                              v.bytes[:64].hex(" ") + (" ..." if len(v.bytes) > 64 else "")))
    if v.fields is not None:
        show_fields(v)
    print("\n".join(read_lines(v) + written_lines(v)))


def show_fields(v):
    pos = 0
    for name, w, value in v.fields:
        if name == "<HERE>":
            print("%6d        ---- refusal expected at this bit" % pos)
            continue
        bits = format(value, "0%db" % w)
        if len(bits) > 40:
            bits = bits[:40] + "..."
        over = "   <- passes the payload's end" if pos + w > 8 * len(v.bytes) else ""
        print("%6d %4d  %-36s %s%s%s" % (pos, w, name, bits, " = %d" % value if w > 1 and w <= 17 else "", over))
        pos += w
    print("%6d        end of the fields; the payload has %d bits" % (pos, 8 * len(v.bytes)))


def cell(s):
    return s.replace("|", "\\|").replace("\n", " ")


def store(items):
    return b"".join(len(item).to_bytes(2, "big") + item for item in items)


def write_docs(f):
    f.write("# Test vectors\n\nWritten by vectors.py; number N is the N-th payload of `payloads`, the N-th form of `written` and the lines "
            "after `vector=N` in `stdout`.\n\n| Number | Name | What it exercises | How its expected text was worked out |\n"
            "|---|---|---|---|\n")
    for n, v in enumerate(VECTORS):
        f.write("| %d | %s | %s | %s |\n" % (n, cell(v.name), cell(v.exercises), cell(v.how)))
    f.write("\n## Written forms\n\nThe form of the tables of each accepted vector whose reserved content flag is clear stands in `written`, "
            "from the writer in form.py, which follows the requirements and clause 5.5. The bits of these %d were derived by hand from the tables, "
            "field by field (vectors/written.py); both agree in every field.\n" % len(HAND))
    number = {v.name: n for n, v in enumerate(VECTORS)}
    for name, shows, parts, hexa in HAND:
        f.write("\n### %s (%d)\n\nShows: %s.\n\n```\n%s\n```\n\nBytes:\n\n```\n" % (name, number[name], shows, "\n".join(parts)))
        for i in range(0, len(hexa), 128):
            f.write(bytes.fromhex(hexa[i:i + 128]).hex(" ") + "\n")
        f.write("```\n")
    f.write("\n## Trim tables\n\nThe bytes of the trim tables of these %d vectors, derived by hand from their fields, part by part "
            "(vectors/written.py).\n" % len(TABLES))
    for name, parts in TABLES:
        f.write("\n### Trim table of %s (%d)\n\n```\n%s\n```\n" % (name, number[name], "\n".join(parts)))


def texts():
    """The expected text of every vector, and the page about them, as lines."""
    out = io.StringIO(newline="\n")
    for n, v in enumerate(VECTORS):
        out.write("\n".join(["vector=%d" % n] + read_lines(v) + written_lines(v)) + "\n")
    page = io.StringIO(newline="\n")
    write_docs(page)
    return out.getvalue().encode(), page.getvalue().encode()


def made():
    """The four files that are made of the vectors, each with its bytes."""
    named = {v.name: v for v in VECTORS}
    check_hand(lambda name: form_of(named[name]))
    check_tables(lambda name: named[name].trim)
    forms = [written_of(v) for v in VECTORS]
    out, page = texts()
    return {
        "crates/vectors/data/payloads": store([v.bytes for v in VECTORS]),
        "crates/vectors/data/written": store([f if len(f) <= 4096 else b"" for f in forms]),
        "crates/vectors/stdout": out,
        "docs/VECTORS.md": page,
    }


def check():
    """Whether the four files are what would be written."""
    stale = [name for name, content in made().items() if open(os.path.join(ROOT, name), "rb").read() != content]
    for name in stale:
        print("%s is not what vectors.py makes: run python3 vectors/vectors.py" % name)
    return not stale


def main(argv):
    words = argv[1:]
    if words[:1] == ["--show"] and len(words) > 1:
        for a in words[1:]:
            show(int(a) if a.isdigit() else [v.name for v in VECTORS].index(a))
            print()
        return 0
    if words == ["--list"]:
        for n, v in enumerate(VECTORS):
            print("%4d %5d  %s" % (n, len(v.bytes), v.name))
        return 0
    if words == ["--check"]:
        if not check():
            return 1
    elif words:
        print(__doc__, file=sys.stderr)
        return 2
    else:
        for name, content in made().items():
            with open(os.path.join(ROOT, name), "wb") as f:
                f.write(content)
    print("%d vectors, %d payload bytes" % (len(VECTORS), sum(len(v.bytes) for v in VECTORS)))
    return 0


sys.exit(main(sys.argv))
