#!/usr/bin/env python3
"""Makes a survey file from a TOML file that a person can write, and shows a survey file as such a TOML file.

Lengths are in mm and volumes in litres, as on the tape, with at most two decimals; the file holds whole hundredths, so every figure is kept
exactly. What is checked is the shape, not the limits: a survey that the library must refuse can be written and shown too.

The seams stand in [[seam]] tables, one for each course in the courses' order. A file without any has none to correct for: make writes zeros for
each course, and show leaves just these zeros out again. `seam = []` is a seam section without records.
"""
import json
import os
import re
import struct
import sys
import tomllib
from decimal import Decimal
from pathlib import Path
from typing import Any, NamedTuple

USE = """use: tools/survey.py make TANK.toml > TANK.survey    makes a survey file
     tools/survey.py show TANK.survey > TANK.toml    shows a survey file
Lengths are in mm, volumes in litres, with at most two decimals. examples/ holds files of both kinds.
Without [[seam]] tables no course has seams. With them there is one for each course, in the courses' order.
A survey file from before there were seams, with a header of 48 bytes, is converted first: tankconvert 48 < OLD > TANK.survey
"""


class Field(NamedTuple):
    """One 32-bit number of the file: its key, its struct code (I unsigned, i signed), its unit, and the comment that show writes."""

    key: str
    code: str
    unit: str
    comment: str


# The file's numbers in their order. After the header's stand, for each section, its count and its byte offset.
HEADER = (
    Field("head_kind", "I", "kind", "flat, half-ellipsoid or spherical-cap"),
    Field("dip_diameter", "I", "mm", "DH, mm"),
    Field("shell_length", "I", "mm", "L1, mm"),
    Field("circumference_left", "I", "mm", "outer, at the left shell end, mm"),
    Field("circumference_right", "I", "mm", "outer, at the right shell end, mm"),
    Field("flange_length", "I", "mm", "L2, of one head, mm"),
    Field("head_length", "I", "mm", "L3, inner, of one head, mm"),
    Field("step", "I", "mm", "from row to row, mm"),
)
SECTIONS = {
    "course": (
        Field("first_circumference", "I", "mm", "outer, mm"),
        Field("second_circumference", "I", "mm", "outer, mm"),
        Field("length", "I", "mm", "mm"),
        Field("thickness", "I", "mm", "of the plate, mm"),
    ),
    "deadwood": (
        Field("low_height", "I", "mm", "dip height, mm"),
        Field("high_height", "I", "mm", "dip height, mm"),
        Field("volume", "i", "litres", "litres that it takes away; below zero, that it adds"),
    ),
    "seam": (
        Field("number", "I", "seams", "seams that the tape crosses"),
        Field("thickness", "I", "mm", "of each, above the plate, mm"),
        Field("width", "I", "mm", "of each, mm"),
    ),
}
TITLES = {"seam": "seams of course"}  # what a record is called with its number behind it, where that is not its table's name
HEAD_KINDS = ("flat", "half-ellipsoid", "spherical-cap")  # a kind's number is its place here; a kind without a name is written as a number
DECIMALS = {"kind": 0, "mm": 2, "litres": 2, "seams": 0}
BOUNDS = {"I": (0, 2**32 - 1), "i": (-(2**31), 2**31 - 1)}
TOML_TYPES = {str: "a text", bool: "true or false", list: "an array", dict: "a table"}
BRACKETS = "{0} must be written as tables that each start with [[{0}]], in double brackets"
HEAD = struct.Struct("<" + "".join(field.code for field in HEADER) + "2I" * len(SECTIONS))
RECORDS = {name: struct.Struct("<" + "".join(field.code for field in fields)) for name, fields in SECTIONS.items()}

Place = tuple[str | int, ...]  # the way to a value of a TOML file: ("course", 1, "thickness") is the second course's
Fault = tuple[Place, str]


class Refused(Exception):
    """What is wrong, a line each, for standard error."""


def read(file: str) -> bytes:
    """The file's bytes."""
    try:
        return Path(file).read_bytes()
    except OSError as error:
        raise Refused(f"{file}: cannot be read: {error.strerror}") from None


# The lines of a TOML file. tomllib tells none, so they are found by a scan of a text that it has accepted.

STRING = r'"""(?:\\.|[^\\])*?"{3,5}' r"|'''.*?'{3,5}" r'|"(?:\\.|[^"\\])*"' r"|'[^']*'"
TOKEN = re.compile(STRING + r"""|#[^\n]*|[\[\]{}=\n]|[^"'#\[\]{}=\n]+""", re.DOTALL)
DEPTH = {"[": 1, "{": 1, "]": -1, "}": -1}


def heads(text: str) -> list[tuple[int, str]]:
    """Each statement's line and its head: a table's name in its brackets, or what stands left of the equals sign."""
    found, line, head, depth, in_value = [], 1, "", 0, False
    for token in TOKEN.findall(text + "\n"):
        if in_value:
            depth += DEPTH.get(token, 0)
            in_value = token != "\n" or depth > 0
        elif token in ("=", "\n"):
            found.append((line, head.strip()))
            head, in_value = "", token == "="
        elif not token.startswith("#"):
            head += token
        line += token.count("\n")
    return [(line, head) for line, head in found if head]


def key_parts(head: str) -> list[str]:
    """The parts of a key, dotted or quoted or neither; tomllib itself reads them."""
    table, parts = tomllib.loads(f"{head} = 0"), []
    while isinstance(table, dict):
        [(part, table)] = table.items()
        parts.append(part)
    return parts


def lines_of(text: str) -> dict[Place, int]:
    """The line of every table and key but those inside a value, such as an inline table's."""
    lines: dict[Place, int] = {}
    counts: dict[Place, int] = {}
    current: Place = ()
    for line, head in heads(text):
        is_table = head.startswith("[")
        place: Place = () if is_table else current
        for part in key_parts(head.strip("[] \t") if is_table else head):
            if place in counts:
                place += (counts[place] - 1,)
            place += (part,)
            lines.setdefault(place, line)
        if head.startswith("[["):
            counts[place] = counts.get(place, 0) + 1
            place += (counts[place] - 1,)
            lines[place] = line
        if is_table:
            current = place
    return lines


def told(file: str, lines: dict[Place, int], faults: list[Fault]) -> str:
    """The faults in the order of their lines. One whose own line is not known gets that of the statement or table around it."""
    found = []
    for place, words in faults:
        while place and place not in lines:
            place = place[:-1]
        line = lines.get(place, 0)
        found.append((line, f"{file}:{line}: {words}" if line else f"{file}: {words}"))
    return "\n".join(words for _, words in sorted(found, key=lambda fault: fault[0]))


# From TOML to a survey file.


def single_brackets(file: str, text: str) -> str:
    """A second [course] is a syntax error, in words that do not say what to do: these do."""
    single = re.compile(rf"^[ \t]*\[[ \t]*({'|'.join(SECTIONS)})[ \t]*\]", re.MULTILINE)
    return "".join(f"\n{file}:{text.count(chr(10), 0, at.start()) + 1}: {BRACKETS.format(at[1])}" for at in single.finditer(text))


def parse(file: str) -> tuple[dict[str, Any], dict[Place, int]]:
    """What the TOML file says, with its figures exact, and on which lines."""
    data = read(file)
    try:
        text = data.decode().removeprefix("\ufeff")  # which some editors put first
        return tomllib.loads(text, parse_float=Decimal), lines_of(text)
    except UnicodeDecodeError as error:
        raise Refused(f"{file}:{data.count(10, 0, error.start) + 1}: not UTF-8 text") from None
    except tomllib.TOMLDecodeError as error:
        raise Refused(f"{file}: {error}{single_brackets(file, text)}") from None
    except (ValueError, ArithmeticError, RecursionError):
        raise Refused(f"{file}: a number is too long, or an array nested too deeply, to be read") from None


def number(field: Field, value: Any) -> int:
    """The number that stands in the file for a value of the TOML; a ValueError says why there is none."""
    decimals, kinds = DECIMALS[field.unit], HEAD_KINDS if field.unit == "kind" else ()
    if value in kinds:
        return kinds.index(value)
    if decimals == 0 and type(value) is not int:
        raise ValueError("must be " + ", ".join(f'"{kind}"' for kind in kinds) + (" or " if kinds else "") + "a whole number")
    if type(value) not in (int, Decimal):
        raise ValueError(f"must be a number of {field.unit}, not {TOML_TYPES.get(type(value), 'a date or time')}")
    figure = Decimal(value)
    if not figure.is_finite():
        raise ValueError(f"must be a number of {field.unit}, not nan or inf")
    if figure.as_tuple().exponent < -decimals:
        raise ValueError("has more than two decimals")
    low, high = (Decimal(bound).scaleb(-decimals) for bound in BOUNDS[field.code])
    if figure < 0 and low == 0:
        raise ValueError("is negative")
    if not low <= figure <= high:
        raise ValueError(f"does not fit its 32 bits: {low} to {high}")
    return int(figure.scaleb(decimals))


def numbers(fields: tuple[Field, ...], table: dict[str, Any], place: Place, faults: list[Fault]) -> list[int]:
    """A table's numbers in the file's order. What is wrong with it joins the faults, all of it, and its number is left out."""
    title = f"{TITLES.get(place[0], place[0])} {place[1] + 1}: " if place else ""
    for key in table:
        if key not in [field.key for field in fields]:
            name = key if re.fullmatch("[A-Za-z0-9_-]+", key) else json.dumps(key)
            faults.append((place + (key,), f"{title}unknown key {name}"))
    words = []
    for field in fields:
        if field.key not in table:
            faults.append((place, f"{title}missing key {field.key}"))
            continue
        try:
            words.append(number(field, table[field.key]))
        except ValueError as error:
            faults.append((place + (field.key,), f"{title}{field.key} {error}"))
    return words


def section(name: str, tables: Any, faults: list[Fault]) -> list[list[int]]:
    """The numbers of a section's records, from the tables of its name."""
    if not isinstance(tables, list) or not all(isinstance(table, dict) for table in tables):
        faults.append(((name,), BRACKETS.format(name)))
        return []
    return [numbers(SECTIONS[name], table, (name, at), faults) for at, table in enumerate(tables)]


def offsets(counts: dict[str, int]) -> dict[str, int]:
    """Where make puts the sections: end to end after the header, an empty one at 0."""
    places, end = {}, HEAD.size
    for name, count in counts.items():
        places[name] = end if count else 0
        end += count * RECORDS[name].size
    return places


def make(file: str) -> bytes:
    """The survey file that a TOML file describes."""
    data, lines = parse(file)
    faults: list[Fault] = []
    head = numbers(HEADER, {key: value for key, value in data.items() if key not in SECTIONS}, (), faults)
    sections = {name: section(name, data.get(name, []), faults) for name in SECTIONS}
    if "seam" not in data:
        sections["seam"] = [[0] * len(SECTIONS["seam"]) for _ in sections["course"]]
    if faults:
        raise Refused(told(file, lines, faults))
    for name, offset in offsets({name: len(records) for name, records in sections.items()}).items():
        head += [len(sections[name]), offset]
    return HEAD.pack(*head) + b"".join(RECORDS[name].pack(*record) for name, records in sections.items() for record in records)


# From a survey file to TOML.


def assignments(fields: tuple[Field, ...], words: tuple[int, ...]) -> list[tuple[str, str]]:
    """A line of TOML and its comment for each number."""
    shown = []
    for field, word in zip(fields, words):
        value = str(Decimal(word).scaleb(-DECIMALS[field.unit]))
        if field.unit == "kind" and word < len(HEAD_KINDS):
            value = f'"{HEAD_KINDS[word]}"'
        shown.append((f"{field.key} = {value}", field.comment))
    return shown


def not_shown(size: int, counts: dict[str, int], places: dict[str, int]) -> str:
    """What of a survey file its TOML does not hold: bytes in no section, and places that make would not choose."""
    free = bytearray(b"\1" * size)
    for start, length in [(0, HEAD.size)] + [(places[name], count * RECORDS[name].size) for name, count in counts.items() if count]:
        free[start : start + length] = bytes(length)
    left = [f"bytes in no section: {free.count(1)}"] if 1 in free else []
    left += [f"{name} at byte {places[name]}, which make puts at {made}" for name, made in offsets(counts).items() if places[name] != made]
    return "; ".join(left)


def show(file: str) -> bytes:
    """The TOML file that describes a survey file. What it leaves out is told on standard error."""
    data = read(file)
    if len(data) < HEAD.size:
        raise Refused(f"{file}: {len(data)} bytes are too few for the header's {HEAD.size}")
    words = HEAD.unpack_from(data)
    tail = words[len(HEADER) :]
    counts, places = dict(zip(SECTIONS, tail[::2])), dict(zip(SECTIONS, tail[1::2]))
    ends = {name: places[name] + count * RECORDS[name].size for name, count in counts.items() if count}
    outside = [f"{file}: {name} ends at byte {end}, past the file's {len(data)}" for name, end in ends.items() if end > len(data)]
    if outside:
        raise Refused("\n".join(outside))
    records = {name: list(RECORDS[name].iter_unpack(data[places[name] : end])) for name, end in ends.items()}
    shown = assignments(HEADER, words)
    if counts["seam"] == counts["course"] and not any(map(any, records.get("seam", []))):
        records.pop("seam", None)  # which make writes by itself
    elif counts["seam"] == 0:
        shown.append(("seam = []", "not one for each course"))
    for name in records:
        for at, record in enumerate(records[name], 1):
            shown += [("", ""), (f"[[{name}]]", f"{TITLES.get(name, name)} {at}")] + assignments(SECTIONS[name], record)
    if left := not_shown(len(data), counts, places):
        sys.stderr.write(f"{file}: not shown: {left}\n")
    width = max(len(line) for line, _ in shown) + 2
    return "".join(f"{line:{width}}# {comment}\n" if line else "\n" for line, comment in shown).encode()


def put(data: bytes) -> None:
    """Writes to standard output, past Python's own buffer, so that a failure is met here and not at exit."""
    try:
        with open(1, "wb", closefd=False) as out:
            out.write(data)
    except OSError as error:
        raise Refused(f"standard output: cannot be written: {error.strerror}") from None


def main(args: list[str]) -> int:
    """Runs one command and gives the exit status: 0 done, 1 refused, 2 wrong use."""
    commands = {"make": make, "show": show}
    try:
        if "-h" in args or "--help" in args:
            put(USE.encode())
        elif len(args) == 2 and args[0] in commands:
            data = commands[args[0]](args[1])
            if args[0] == "make" and os.isatty(1):
                raise Refused("a survey file is not for a terminal; send it to a file, with > TANK.survey")
            put(data)
        else:
            sys.stderr.write(USE)
            return 2
    except Refused as refused:
        sys.stderr.write(f"{refused}\n")
        return 1
    return 0


if __name__ == "__main__":
    sys.exit(main(sys.argv[1:]))
