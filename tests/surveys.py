"""What the tests of the built programs share: a survey's bytes, a run of a program, the papers' rounding, and the count of the checks."""
import struct
import subprocess
import sys
from fractions import Fraction
from pathlib import Path

ROOT = Path(__file__).resolve().parent.parent
TABLE = ROOT / "target/bin/tanktable"
LOOKUP = ROOT / "target/bin/tanklookup"
CONVERT = ROOT / "target/bin/tankconvert"
SIX_ROWS = (ROOT / "examples/six_rows.survey").read_bytes()

checks = failures = 0


def same(what, expected, found):
    """One check: what is shown, what was expected, what came."""
    global checks, failures
    checks += 1
    if expected != found:
        failures += 1
        print(f"FAILED: {what}\n  expected {expected!r}\n  found    {found!r}")


def run_for_bytes(program, *words, survey=SIX_ROWS):
    """What a program writes to standard output, as bytes, and to standard error; its exit status is always 0."""
    done = subprocess.run([program, *words], input=survey, capture_output=True, timeout=60)
    same(f"exit status of {program.name} {' '.join(words)}"[:100], 0, done.returncode)
    return done.stdout, done.stderr.decode()


def run(program, *words, survey=SIX_ROWS):
    """The same of a program that writes text."""
    written, said = run_for_bytes(program, *words, survey=survey)
    return written.decode(), said


def printed_rows(said):
    """The rows that tanktable printed: v by the dip height in u."""
    return dict((int(figure.replace(".", "")) for figure in line.split()) for line in said.splitlines()[1:])


def nearest(top, bottom):
    """The whole number nearest to top / bottom, an exact half to the even neighbour: so Python rounds a fraction."""
    return round(Fraction(top, bottom))


THICKNESS = 500  # of a plate, so that the wall is 1,000


def readings(diameter):
    """Two circumferences that give an inner diameter by document 01."""
    outer = diameter + 2 * THICKNESS
    both = nearest(710 * outer, 113)
    assert nearest(113 * both, 710) == outer
    return both // 2, both - both // 2


def survey(*, kind=0, dh=50_000, l1=100_000, left=160_221, right=160_221, l2=0, l3=0, step=10_000,
           courses=None, deadwood=(), seams=None, places=None):
    """A survey's bytes, the six rows' where nothing else is said; seams are none for each course. The sections stand end to end, and `places` are
    the byte offsets that the header gives for them."""
    courses = [(160_221, 160_221, 100_000, 500)] if courses is None else courses
    seams = [(0, 0, 0)] * len(courses) if seams is None else seams
    data, found = b"", []
    for layout, records in ("<4I", courses), ("<2Ii", deadwood), ("<3I", seams):
        found += [(len(records), 56 + len(data) if records else 0)]
        data += b"".join(struct.pack(layout, *record) for record in records)
    if places:
        found = [(count, place) for (count, _), place in zip(found, places)]
    return struct.pack("<14I", kind, dh, l1, left, right, l2, l3, step, *found[0], *found[1], *found[2]) + data


def tank(dh, *, d1=None, d2=None, l1=100_000, **parts):
    """The bytes of a survey whose diameters come out as these, at DH where nothing else is said; its shell is one course."""
    left, right = readings(d2 or dh)
    return survey(dh=dh, l1=l1, left=left, right=right, courses=[(*readings(d1 or dh), l1, THICKNESS)], **parts)


def try_all(what, *parts):
    """Runs a test's parts, tells the checks of each and of all, and exits with 1 if one failed."""
    for part in parts:
        before = checks
        part()
        print(f"{part.__name__}: {checks - before} checks")
    print(f"{checks} checks of {what}, {failures} failed")
    sys.exit(1 if failures else 0)
