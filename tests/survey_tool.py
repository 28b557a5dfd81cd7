#!/usr/bin/env python3
"""Tries tools/survey.py: the examples both ways, random surveys against bytes packed here, every error with its key and line, failed writes
and wrong use. Says what it tried; a changed copy of the examples is seen to be found."""
import os
import pty
import random
import shutil
import struct
import subprocess
import sys
import tempfile
import tomllib
from decimal import Decimal
from pathlib import Path

ROOT = Path(__file__).resolve().parent.parent
TOOL = ROOT / "tools" / "survey.py"
EXAMPLES = ROOT / "examples"
CUT = "cut_short"  # the first 55 bytes of six_rows: no TOML can say it
passed = failed = 0


def check(name: str, expected: object, came: object) -> None:
    """One check: its name, what was expected, what came."""
    global passed, failed
    if expected == came:
        passed += 1
        print(f"ok: {name}")
    else:
        failed += 1
        print(f"FAILED: {name}\n  expected {expected!r}\n  came     {came!r}")


def run(*args: object, stdout: int = subprocess.PIPE) -> subprocess.CompletedProcess[bytes]:
    return subprocess.run([sys.executable, TOOL, *map(str, args)], stdout=stdout, stderr=subprocess.PIPE, check=False)


def values(toml: bytes) -> dict:
    return tomllib.loads(toml.decode(), parse_float=Decimal)


# The examples.


def disagreements(folder: Path) -> list[str]:
    """What is wrong with a folder of surveys and their TOML."""
    found = []
    for survey in sorted(folder.glob("*.survey")):
        data, toml = survey.read_bytes(), survey.with_suffix(".toml")
        if survey.stem == CUT:
            if data != (folder / "six_rows.survey").read_bytes()[:55]:
                found.append(f"{survey.name} is not the cut of six_rows.survey")
            continue
        if not toml.exists():
            found.append(f"{survey.name} has no TOML")
            continue
        if run("make", toml).stdout != data:
            found.append(f"{toml.name} does not make its survey")
        shown = run("show", survey).stdout
        if values(shown) != values(toml.read_bytes()):
            found.append(f"{survey.name} is not shown as its TOML says")
        again = folder / "again"
        again.write_bytes(shown)
        if run("make", again).stdout != data:
            found.append(f"{survey.name} is not made again from what is shown")
        again.unlink()
    found += [f"{toml.name} has no survey" for toml in sorted(folder.glob("*.toml")) if not toml.with_suffix(".survey").exists()]
    return found


def examples(folder: Path) -> None:
    """The examples agree, and each way in which they could not is found."""

    def copy(name: str) -> Path:
        to = folder / name
        to.mkdir()
        for file in [*EXAMPLES.glob("*.survey"), *EXAMPLES.glob("*.toml")]:
            shutil.copy(file, to)
        return to

    check("thirteen surveys and twelve TOML files", (13, 12), (len(list(EXAMPLES.glob("*.survey"))), len(list(EXAMPLES.glob("*.toml")))))
    check("the examples agree both ways", [], disagreements(copy("as they are")))
    changed = copy("a byte changed")
    data = bytearray((changed / "falling_row.survey").read_bytes())
    data[4] ^= 1
    (changed / "falling_row.survey").write_bytes(data)
    expected = ["falling_row.toml does not make its survey", "falling_row.survey is not shown as its TOML says"]
    check("a changed survey is found", expected, disagreements(changed))
    changed = copy("a figure changed")
    text = (changed / "six_rows.toml").read_text()
    (changed / "six_rows.toml").write_text(text.replace("1602.21 ", "1602.22 ", 1))
    expected = ["six_rows.toml does not make its survey", "six_rows.survey is not shown as its TOML says"]
    check("a changed TOML is found", expected, disagreements(changed))
    changed = copy("files taken away")
    (changed / "six_rows.toml").unlink()
    (changed / "fifty_cubic_metres.survey").unlink()
    (changed / f"{CUT}.survey").write_bytes(bytes(55))
    expected = [f"{CUT}.survey is not the cut of six_rows.survey", "six_rows.survey has no TOML", "fifty_cubic_metres.toml has no survey"]
    check("files that lack each other and a wrong cut are found", expected, disagreements(changed))


# Random surveys. The keys in the file's order are said here once more, so that the tool is not held against its own table.

HEADER = "head_kind dip_diameter shell_length circumference_left circumference_right flange_length head_length step".split()
COURSE = "first_circumference second_circumference length thickness".split()
DEADWOOD = "low_height high_height volume".split()
SEAM = "number thickness width".split()


def figure(word: int, dice: random.Random) -> str:
    """A figure of so many hundredths, written in one of the ways that a person may choose."""
    text = f"{'-' if word < 0 else ''}{abs(word) // 100}.{abs(word) % 100:02}"
    for end in ("0", ".0"):
        if text.endswith(end) and dice.random() < 0.5:
            text = text.removesuffix(end)
    return text


def words(low: int, high: int, count: int, dice: random.Random) -> list[int]:
    return [dice.choice([low, 0, high, dice.randint(low, high), dice.randint(0, 500_000)]) for _ in range(count)]


def written(keys: list[str], record: list[int], dice: random.Random) -> list[str]:
    """The lines of a table, in any order, with odd spaces, quotes and comments."""
    lines = []
    for key, word in zip(keys, record):
        value = str(word) if key == "number" else figure(word, dice)
        if key == "head_kind":
            value = dice.choice([str(word), *{0: ['"flat"'], 1: ["'half-ellipsoid'"], 2: ['"spherical-cap"']}.get(word, [])])
        lines.append(dice.choice(["{} = {}", "  {}={} # [[course]]", '"{}" = {}', "'{}'\t= {}", "\n# = [\n{} = {}"]).format(key, value))
    dice.shuffle(lines)
    return lines


def random_surveys(folder: Path) -> None:
    """Surveys of random numbers are made as they are packed here, shown with the same numbers, and made again from what is shown."""
    dice = random.Random(20)
    tried = {"made": 0, "shown": 0, "made again": 0}
    for _ in range(40):
        header = [dice.choice([0, 1, 2, 3, 2**32 - 1]), *words(0, 2**32 - 1, 7, dice)]
        courses = [words(0, 2**32 - 1, 4, dice) for _ in range(dice.choice([0, 1, 2, 5]))]
        deadwood = [words(0, 2**32 - 1, 2, dice) + words(-(2**31), 2**31 - 1, 1, dice) for _ in range(dice.choice([0, 0, 1, 3]))]
        # none said, which is zeros for each course; as many as courses, of which some are zeros; or another number of them
        none = [[0, 0, 0] for _ in courses]
        some = [dice.choice([zeros, words(0, 2**32 - 1, 3, dice)]) for zeros in none]
        other = [words(0, 2**32 - 1, 3, dice) for _ in range(dice.choice([0, 1, 3]))]
        seams = dice.choice([None, none, some, some, other, other])
        lines = written(HEADER, header, dice) + ["seam = []"] * (seams == [] != none)
        seams, said = none if seams is None else seams, seams or []
        for name, keys, records in (("course", COURSE, courses), ("deadwood", DEADWOOD, deadwood), ("seam", SEAM, said)):
            for record in records:
                lines += [f"[[{name}]]", *written(keys, record, dice)]
        toml, survey = folder / "random.toml", folder / "random.survey"
        toml.write_text(dice.choice(["\n", "\r\n"]).join("\n".join(lines).split("\n")), newline="")
        places, end = [], 56
        for records, size in ((courses, 16), (deadwood, 12), (seams, 12)):
            places += [len(records), end if records else 0]
            end += size * len(records)
        data = struct.pack("<14I", *header, *places) + b"".join(struct.pack("<4I", *record) for record in courses)
        data += b"".join(struct.pack("<2Ii", *record) for record in deadwood) + b"".join(struct.pack("<3I", *record) for record in seams)
        made = run("make", toml)
        tried["made"] += (made.returncode, made.stdout, made.stderr) == (0, data, b"")
        survey.write_bytes(data)
        shown = run("show", survey)
        told = values(shown.stdout)
        kind = {"flat": 0, "half-ellipsoid": 1, "spherical-cap": 2}.get(told["head_kind"], told["head_kind"])
        same = [kind, *(told[key] * 100 for key in HEADER[1:])] == header and list(told)[: len(HEADER)] == HEADER
        same = same and [[item[key] * 100 for key in COURSE] for item in told.get("course", [])] == courses
        same = same and [[item[key] * 100 for key in DEADWOOD] for item in told.get("deadwood", [])] == deadwood
        # zeros for each course are left out
        shown_seams = [[item["number"], *(item[key] * 100 for key in SEAM[1:])] for item in told["seam"]] if "seam" in told else none
        same = same and shown_seams == seams and ("seam" in told) == (seams != none)
        tried["shown"] += same and shown.stderr == b""
        toml.write_bytes(shown.stdout)
        tried["made again"] += run("make", toml).stdout == data
    check("40 random surveys: made, shown, made again", {"made": 40, "shown": 40, "made again": 40}, tried)


# Errors.

TANK = """head_kind = "flat"
dip_diameter = 500
shell_length = 1000
circumference_left = 1602.21
circumference_right = 1602.21
flange_length = 0
head_length = 0.0
step = 100
[[course]]
first_circumference = 1602.21
second_circumference = 1602.21
length = 1000
thickness = 5
[[course]]
first_circumference = 1602.21
second_circumference = 1602.21
length = 0
thickness = 5
[[deadwood]]
low_height = 0
high_height = 1
volume = -21_474_836.48
[[seam]]
number = 2
thickness = 2.00
width = 12
[[seam]]
number = 0
thickness = 0
width = 0
"""
BRACKETS = "{0} must be written as tables that each start with [[{0}]], in double brackets"
KIND = 'head_kind must be "flat", "half-ellipsoid", "spherical-cap" or a whole number'
LENGTH = "does not fit its 32 bits: 0.00 to 42949672.95"
VOLUME = "does not fit its 32 bits: -21474836.48 to 21474836.47"
# what is tried, what of TANK is replaced by what, and what is told after the file's name
EDITS = [
    ("a third decimal", "dip_diameter = 500", "dip_diameter = 1602.215", ":2: dip_diameter has more than two decimals"),
    ("a third decimal that is 0", "dip_diameter = 500", "dip_diameter = 500.000", ":2: dip_diameter has more than two decimals"),
    ("a decimal far out", "step = 100", "step = 100.0000000000000000000000000000000001", ":8: step has more than two decimals"),
    ("a power far down", "step = 100", "step = 1e-999999999", ":8: step has more than two decimals"),
    ("a text", "shell_length = 1000", 'shell_length = "1000"', ":3: shell_length must be a number of mm, not a text"),
    ("a bool", "flange_length = 0", "flange_length = true", ":6: flange_length must be a number of mm, not true or false"),
    ("a date", "step = 100", "step = 1979-05-27", ":8: step must be a number of mm, not a date or time"),
    ("an array", "volume = -21_474_836.48", "volume = [1]", ":22: deadwood 1: volume must be a number of litres, not an array"),
    ("an inline table", "step = 100", "step = { mm = 100 }", ":8: step must be a number of mm, not a table"),
    ("nan", "step = 100", "step = nan", ":8: step must be a number of mm, not nan or inf"),
    ("inf", "volume = -21_474_836.48", "volume = -inf", ":22: deadwood 1: volume must be a number of litres, not nan or inf"),
    ("a kind without a name", '"flat"', '"round"', f":1: {KIND}"),
    ("a kind with decimals", '"flat"', "1.00", f":1: {KIND}"),
    ("a kind below zero", '"flat"', "-1", ":1: head_kind is negative"),
    ("a kind too large", '"flat"', "4294967296", ":1: head_kind does not fit its 32 bits: 0 to 4294967295"),
    ("a length too large", "dip_diameter = 500", "dip_diameter = 42949672.96", f":2: dip_diameter {LENGTH}"),
    ("a power far up", "dip_diameter = 500", "dip_diameter = 1e999999999", f":2: dip_diameter {LENGTH}"),
    ("a volume too large", "volume = -21_474_836.48", "volume = 21474836.48", f":22: deadwood 1: volume {VOLUME}"),
    ("a volume too small", "volume = -21_474_836.48", "volume = -21474836.49", f":22: deadwood 1: volume {VOLUME}"),
    ("a negative length", "length = 0\n", "length = -0.01\n", ":6: flange_length is negative\n:17: course 2: length is negative"),
    ("an unknown key", "step = 100", "step = 100\ncolour = 1", ":9: unknown key colour"),
    ("an unknown key with a line break", "length = 0\nt", 'length = 0\n"a\\nb" = 1\nt', ':18: course 2: unknown key "a\\nb"'),
    ("an unknown table", "[[deadwood]]", "[paint.coat]\n[[deadwood]]", ":19: unknown key paint"),
    ("a table below a course", "[[deadwood]]", "[course.paint]\n[[deadwood]]", ":19: course 2: unknown key paint"),
    ("a missing key", "length = 0\nthickness = 5", "length = 0", ":14: course 2: missing key thickness"),
    ("a missing key of the header", "step = 100", "", ": missing key step"),
    ("a key below the wrong table", "step = 100\n[[course]]", "[[course]]\nstep = 100", ": missing key step\n:9: course 1: unknown key step"),
    ("seams with decimals", "number = 2", "number = 2.0", ":24: seams of course 1: number must be a whole number"),
    ("seams as a text", "number = 0", 'number = "flat"', ":28: seams of course 2: number must be a whole number"),
    ("seams below zero", "number = 0", "number = -1", ":28: seams of course 2: number is negative"),
    ("seams too many", "number = 2", "number = 4294967296", ":24: seams of course 1: number does not fit its 32 bits: 0 to 4294967295"),
    ("a seam's third decimal", "thickness = 2.00", "thickness = 2.005", ":25: seams of course 1: thickness has more than two decimals"),
    ("a seam's width below zero", "width = 12", "width = -12", ":26: seams of course 1: width is negative"),
    ("a seam's missing key", "width = 0", "", ":27: seams of course 2: missing key width"),
    ("a seam's unknown key", "width = 12", "width = 12\nlength = 1", ":27: seams of course 1: unknown key length"),
    ("[deadwood]", "[[deadwood]]", "[deadwood]", f":19: {BRACKETS.format('deadwood')}"),
    ("[[course]] after a course of another kind", "step = 100", "step = 100\ncourse = 3", ": Cannot overwrite a value (at line 10, column 9)"),
    ("a syntax error", "step = 100", "step = ", ": Invalid value (at line 8, column 8)"),
    ("a comma for a point", "step = 100", "step = 100,00", ": Expected newline or end of document after a statement (at line 8, column 11)"),
    ("a key twice", "step = 100", "step = 100\nstep = 100", ": Cannot overwrite a value (at line 9, column 11)"),
    ("a number without end", "step = 100", "step = " + "9" * 5000, ": a number is too long, or an array nested too deeply, to be read"),
    ("a power without end", "step = 100", "step = 1e" + "9" * 50, ": a number is too long, or an array nested too deeply, to be read"),
    ("an array without end", "step = 100", "step = " + "[" * 5000, ": a number is too long, or an array nested too deeply, to be read"),
]
# every line number below is that of a text whose own brackets, quotes and equals signs must mislead nobody
ODD = '''# [[course]]
note = """ " ""\\"""
[[course]]
length = 1 # """" # [
'text' = \'\'\'
[course] \'\'\'\'\'
array = [ # ]
  "]", '[', { a = "}" },
  [1, 2], # [
] # [
"a = \\"b" = "# [ \\\\"
dip."dia meter".x = 1
[[ "course" ]] # ]]
thickness = 1.005 # '
[ course . paint ]
length = 1
[[course]]
[[course.paint]]
thickness = 1
'''
ODD_TOLD = (
    [": missing key " + key for key in HEADER]
    + [":2: unknown key note", ":5: unknown key text", ":7: unknown key array", ':11: unknown key "a = \\"b"', ":12: unknown key dip"]
    + [f":13: course 1: missing key {key}" for key in COURSE[:3]]
    + [":14: course 1: thickness has more than two decimals", ":15: course 1: unknown key paint"]
    + [f":17: course 2: missing key {key}" for key in COURSE]
    + [":18: course 2: unknown key paint"]
)
# tables inside a value: key and table are named, and the line is that of the statement
ITEM = "{ low_height = 0, high_height = 1, volume = %s }"
INLINE = f"step = 100\ndeadwood = [\n {ITEM % 1},\n {ITEM % 0.001}\n]\n"


def errors(folder: Path) -> None:
    """Every error is told with its key and line, all of a file's together, and nothing is written then."""
    file = folder / "tank.toml"

    def refused(name: str, text: str | bytes, told: str) -> None:
        file.write_bytes(text if isinstance(text, bytes) else text.encode())
        came = run("make", file)
        lines = "".join(f"{file}{line}\n" for line in told.split("\n"))
        check(name, (1, b"", lines), (came.returncode, came.stdout, came.stderr.decode()))

    for name, mark in (("the tank that is edited below", ""), ("the same after a byte order mark", "\ufeff")):
        file.write_bytes((mark + TANK).encode())
        came = run("make", file)
        check(name, (0, 56 + 2 * 16 + 12 + 2 * 12, b""), (came.returncode, len(came.stdout), came.stderr))
    for name, old, new, told in EDITS:
        assert old in TANK, old
        refused(name, TANK.replace(old, new), told)
    brackets = BRACKETS.format("course")
    told = f": Cannot declare ('course',) twice (at line 14, column 8)\n:9: {brackets}\n:14: {brackets}"
    refused("[course] twice", TANK.replace("[[course]]", "[course]"), told)
    header = TANK.split("[[course]]", maxsplit=1)[0]
    refused("[course] once", header + "[course]\nlength = 1\n", f":9: {brackets}")
    for value in ("3", "[3]", '"none"'):
        refused(f"course = {value}", header + f"course = {value}\n", f":9: {brackets}")
        refused(f"seam = {value}", header + f"seam = {value}\n", f":9: {BRACKETS.format('seam')}")
    refused("[seam] once", header + "[seam]\nnumber = 1\n", f":9: {BRACKETS.format('seam')}")
    refused("odd writing, all faults at once", ODD, "\n".join(ODD_TOLD))
    refused("odd writing with Windows line ends", ODD.replace("\n", "\r\n"), "\n".join(ODD_TOLD))
    refused("tables inside a value", header.replace("step = 100\n", INLINE), ":9: deadwood 2: volume has more than two decimals")
    refused("not UTF-8", TANK.encode() + b"# \xff\n", ":31: not UTF-8 text")
    for command in ("make", "show"):
        for what, why in ((folder / "nowhere", "No such file or directory"), (folder, "Is a directory")):
            came = run(command, what)
            check(f"{command}: {why}", (1, b"", f"{what}: cannot be read: {why}\n"), (came.returncode, came.stdout, came.stderr.decode()))


def shown_or_not(folder: Path) -> None:
    """What show cannot show is an error; what its TOML leaves out is told, and the rest is shown."""
    file = folder / "tank.survey"
    six = (EXAMPLES / "six_rows.survey").read_bytes()
    toml = run("show", EXAMPLES / "six_rows.survey").stdout
    check("a line as it is shown", True, b"\ndip_diameter = 500.00           # DH, mm\n" in toml)

    def shown(name: str, data: bytes, told: str, expected: bytes) -> None:
        file.write_bytes(data)
        came = run("show", file)
        check(name, (0 if expected else 1, expected, f"{file}: {told}\n"), (came.returncode, came.stdout, came.stderr.decode()))

    def placed(*places: int) -> bytes:
        return six[:32] + struct.pack("<6I", *places)

    shown("an empty file", b"", "0 bytes are too few for the header's 56", b"")
    shown("a file cut short", six[:55], "55 bytes are too few for the header's 56", b"")
    both = "course ends at byte 72, past the file's 71\n{0}: seam ends at byte 84, past the file's 71"
    shown("a course cut short", six[:71], both.format(file), b"")
    shown("a seam cut short", six[:83], "seam ends at byte 84, past the file's 83", b"")
    outside = ["course ends at byte 68719476776", "deadwood ends at byte 68", "seam ends at byte 80"]
    told = f"\n{file}: ".join(f"{words}, past the file's 56" for words in outside)
    shown("sections outside", placed(2**32 - 1, 56, 1, 56, 2, 56), told, b"")
    shown("bytes behind the sections", six + b"more", "not shown: bytes in no section: 4", toml)
    elsewhere = "not shown: bytes in no section: 2; course at byte 58, which make puts at 56; seam at byte 74, which make puts at 72"
    shown("sections elsewhere", placed(1, 58, 0, 0, 1, 74) + b"ab" + six[56:], elsewhere, toml)
    shown("an empty section's place", placed(1, 56, 0, 99, 1, 72) + six[56:], "not shown: deadwood at byte 99, which make puts at 0", toml)
    old = "seam ends at byte 2082873, past the file's 64"
    shown("a file from before there were seams", (EXAMPLES / "old/six_rows.survey").read_bytes(), old, b"")


def seams(folder: Path) -> None:
    """Zeros for each course need not be written and are not shown; every other seam section is both, one of another count than the courses' too."""
    toml, survey = folder / "seams.toml", folder / "seams.survey"
    text, six = (EXAMPLES / "six_rows.toml").read_text(), (EXAMPLES / "six_rows.survey").read_bytes()
    plain = run("show", EXAMPLES / "six_rows.survey").stdout.decode()

    def both_ways(name: str, written: str, records: list[tuple[int, int, int]], expected: str) -> None:
        data = six[:48] + struct.pack("<2I", len(records), 72 if records else 0) + six[56:72]
        data += b"".join(struct.pack("<3I", *record) for record in records)
        toml.write_text(written)
        check(f"{name}: made", data, run("make", toml).stdout)
        survey.write_bytes(data)
        shown = run("show", survey)
        check(f"{name}: shown", (expected, b""), (shown.stdout.decode(), shown.stderr))
        toml.write_bytes(shown.stdout)
        check(f"{name}: made again", data, run("make", toml).stdout)

    def table(at: int, number: int, thickness: str, width: str) -> str:
        lines = [("[[seam]]", f"seams of course {at}"), (f"number = {number}", "seams that the tape crosses")]
        lines += [(f"thickness = {thickness}", "of each, above the plate, mm"), (f"width = {width}", "of each, mm")]
        return "\n" + "".join(f"{line:32}# {comment}\n" for line, comment in lines)

    zeros = "\n[[seam]]\nnumber = 0\nthickness = 0\nwidth = 0\n"
    raised = zeros.replace("number = 0\nthickness = 0", "number = 12\nthickness = 10.01")
    both_ways("no table", text, [(0, 0, 0)], plain)
    both_ways("a table of zeros", text + zeros, [(0, 0, 0)], plain)
    both_ways("a table", text + raised, [(12, 1001, 0)], plain + table(1, 12, "10.01", "0.00"))
    both_ways("a width alone", text + zeros.replace("width = 0", "width = 50"), [(0, 0, 5000)], plain + table(1, 0, "0.00", "50.00"))
    both_ways("two tables for one course", text + zeros + zeros, [(0, 0, 0)] * 2, plain + table(1, 0, "0.00", "0.00") + table(2, 0, "0.00", "0.00"))
    none = "seam = []                       # not one for each course\n"
    both_ways("an empty section", "seam = []\n" + text, [], plain.replace("\n\n[[course]]", f"\n{none}\n[[course]]"))


def use_and_writes(folder: Path) -> None:
    """Help, wrong use, and a standard output that takes nothing."""
    helped = run("--help")
    check("--help", (0, b"use: tools/survey.py make", b""), (helped.returncode, helped.stdout[:25], helped.stderr))
    check("make -h is the same", helped.stdout, run("make", "-h").stdout)
    for wrong in ([], ["make"], ["show"], ["draw", "x"], ["make", "x", "y"]):
        came = run(*wrong)
        check(f"wrong use: {wrong}", (2, b"", helped.stdout), (came.returncode, came.stdout, came.stderr))
    alone = subprocess.run([TOOL, "make", EXAMPLES / "six_rows.toml"], cwd=folder, capture_output=True, check=False)
    check("as a program of its own, from another folder", (EXAMPLES / "six_rows.survey").read_bytes(), alone.stdout)
    commands = (["make", EXAMPLES / "six_rows.toml"], ["show", EXAMPLES / "six_rows.survey"], ["--help"])
    for command in commands:
        with open("/dev/full", "wb") as full:
            came = run(*command, stdout=full.fileno())
        told = b"standard output: cannot be written: No space left on device\n"
        check(f"{command[0]}: a full disk", (1, told), (came.returncode, came.stderr))
        gone, pipe = os.pipe()
        os.close(gone)
        came = run(*command, stdout=pipe)
        os.close(pipe)
        check(f"{command[0]}: a closed pipe", (1, b"standard output: cannot be written: Broken pipe\n"), (came.returncode, came.stderr))
    master, terminal = pty.openpty()
    came = run("make", EXAMPLES / "six_rows.toml", stdout=terminal)
    told = b"a survey file is not for a terminal; send it to a file, with > TANK.survey\n"
    check("make: a terminal", (1, told), (came.returncode, came.stderr))
    check("show: a terminal", 0, run("show", EXAMPLES / "six_rows.survey", stdout=terminal).returncode)
    os.close(terminal)
    os.close(master)


with tempfile.TemporaryDirectory() as scratch:
    for part in (examples, random_surveys, errors, shown_or_not, seams, use_and_writes):
        part(Path(scratch))
print(f"{passed + failed} checks of tools/survey.py, {failed} failed")
sys.exit(1 if failed else 0)
