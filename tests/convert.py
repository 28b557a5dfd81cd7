#!/usr/bin/env python3
"""Holds survey files to document 02's request E4: old ones, with a header of 48 bytes, are converted by document 01's rule, and what the tape
rises over weld seams is taken off the readings of a course. Runs target/bin/tankconvert on the old examples and on old files that are moved, padded
and refused, and target/bin/tanktable on what comes out, whole, cut, moved and damaged, and on tapes that rise. Says what was tried.
"""
import struct
from itertools import permutations

from surveys import CONVERT, ROOT, TABLE, nearest, run, run_for_bytes, same, survey, try_all

EXAMPLES = ROOT / "examples"
OLD = EXAMPLES / "old"
HEAD = 56
SIZES = 16, 12, 12  # of a course, a deadwood item and a course's seams


def convert(old):
    """What tankconvert writes for an old file, and says."""
    return run_for_bytes(CONVERT, "48", survey=old)


def word(data, at):
    return struct.unpack_from("<I", data, at)[0]


def with_word(data, at, number):
    """The file with another number at a byte."""
    return data[:at] + struct.pack("<I", number) + data[at + 4:]


def sections(data, count=3):
    """The bytes of a file's sections, in the header's order."""
    heads = [(word(data, 32 + 8 * i), word(data, 36 + 8 * i)) for i in range(count)]
    return [data[place:place + size * records] for size, (records, place) in zip(SIZES, heads)]


def placed(start, parts, order, gaps, empty=0):
    """A file with so many bytes of header numbers and these sections, in any order, with gaps of odd bytes before each and behind them. An empty
    section's offset is a number of its own."""
    head = len(start) + 8 * len(parts)
    body, at = b"", [empty] * len(parts)
    for part, gap in zip(order, gaps):
        body += b"\xa5" * gap
        if parts[part]:
            at[part] = head + len(body)
        body += parts[part]
    counts = [len(part) // size for part, size in zip(parts, SIZES)]
    return start + b"".join(struct.pack("<2I", *pair) for pair in zip(counts, at)) + body + b"\xa5" * gaps[-1]


def old_survey(**numbers):
    """An old file: that of `survey` without its seams."""
    data = survey(**numbers)
    return placed(data[:32], sections(data, 2), range(2), (0, 0, 0))


# Converting.


def old_examples():
    """Each old example gives today's file of its name, or the refusal that stands beside it; the tables are those that stand beside today's."""
    files = sorted(OLD.glob("*.survey"))
    refused = [file.stem for file in files if file.with_suffix(".txt").exists()]
    for file in files:
        written, said = convert(file.read_bytes())
        if file.stem in refused:
            same(f"{file.stem}, refused", file.with_suffix(".txt").read_bytes(), written)
            same(f"{file.stem}, in words: one line", 1, said.count("\n"))
        else:
            same(f"{file.stem}, converted", (EXAMPLES / file.name).read_bytes(), written)
            same(f"{file.stem}, in words: none", "", said)
            same(f"{file.stem}, its table", ((EXAMPLES / f"{file.stem}.txt").read_text(), ""), run(TABLE, survey=written))
        same(f"{file.stem}, by its name", (written, said), run_for_bytes(CONVERT, "-f", str(file), "48", survey=b""))
    same("a refusal beside an old file alone", [], [file.name for file in OLD.glob("*.txt") if file.stem not in refused])
    print(f"old files: {len(files)}, of which {len(refused)} are refused")


def moved_old_files():
    """Sections anywhere in an old file come out end to end in the header's order, and bytes in no section are dropped."""
    for name in "deadwood_and_flanges", "spherical_caps", "courses_miss":
        old, today = (OLD / f"{name}.survey").read_bytes(), (EXAMPLES / f"{name}.survey").read_bytes()
        for order in permutations(range(2)):
            for gaps in (0, 0, 0), (1, 0, 3), (8, 5, 0), (100, 1_000, 60_000):
                moved = placed(old[:32], sections(old, 2), order, gaps, empty=4_294_967_295)
                same(f"{name}, sections in order {order} with gaps {gaps}", (today, ""), convert(moved))
        same(f"{name}, the longest file", (today, ""), convert(old + bytes(65_536 - len(old))))
        same(f"{name}, one byte more", b"refused 1 0\n", convert(old + bytes(65_537 - len(old)))[0])
        same(f"{name}, converted once more, which finds the same sections", (today, ""), convert(today))


def every_word():
    """Every number of header, courses and deadwood is carried over as it stands, and the seams are zeros, up to the most records."""
    courses = [(1_573_900 + n, 1_573_939 - n, 75_000 - n + 19, 500 + n) for n in range(40)]
    deadwood = [(n, 400_000 + 1_000 * n, -n * 1_001) for n in range(64)]
    for count, items in (40, 64), (40, 0), (2, 64), (2, 1):
        numbers = dict(kind=1, dh=500_000, l1=75_000 * count, left=1_573_938, right=1_573_939, l2=20_000, l3=250_000, step=10_000,
                       courses=courses[:count], deadwood=deadwood[:items])
        today = survey(**numbers)
        same(f"{count} courses and {items} items, bytes", HEAD + 28 * count + 12 * items, len(today))
        same(f"{count} courses and {items} items", (today, ""), convert(old_survey(**numbers)))
        same(f"{count} courses and {items} items, the table's first line", "rows 51", run(TABLE, survey=today)[0].partition("\n")[0])


def refused_old_files():
    """An old file that is refused gives its refusal alone, with the place in the old file and in the words for it."""
    four = [(160_221, 160_221, 25_000, 500)] * 4
    six = (OLD / "six_rows.survey").read_bytes()
    both = old_survey(deadwood=[(0, 1, 1)])
    for old, number, place, sentence in [
        (b"", 1, 0, "file of 0 bytes: must have 48 to 65536"),
        (six[:47], 1, 0, "file of 47 bytes: must have 48 to 65536"),
        (six + bytes(65_536), 1, 0, "file of more than 65536 bytes: must have 48 to 65536"),
        (with_word(six, 32, 0), 2, 0, "course count 0: must be 1 to 40"),
        (with_word(six, 32, 41), 2, 0, "course count 41: must be 1 to 40"),
        (with_word(six, 40, 65), 2, 0, "deadwood count 65: must be 0 to 64"),
        (six[:48], 3, 0, "byte offset of the courses 48: its 1 records must start at byte 48 or later and end inside the file of 48 bytes"),
        (six[:63], 3, 0, "byte offset of the courses 48: its 1 records must start at byte 48 or later and end inside the file of 63 bytes"),
        (with_word(six, 36, 47), 3, 0,
         "byte offset of the courses 47: its 1 records must start at byte 48 or later and end inside the file of 64 bytes"),
        (with_word(both, 44, 63), 3, 0, "byte offset of the deadwood 63: its 1 records must not overlap the courses"),
        (with_word(both, 44, 65), 3, 0,
         "byte offset of the deadwood 65: its 1 records must start at byte 48 or later and end inside the file of 76 bytes"),
        (with_word(six, 0, 3), 4, 0, "head kind 3: must be 0 (flat), 1 (half-ellipsoid) or 2 (spherical cap)"),
        (with_word(six, 4, 49_999), 5, 4, "dip diameter DH 49999 (499.99 mm): must be 50000 to 500000"),
        (with_word(six, 28, 99), 5, 28, "step 99 (0.99 mm): must be 100 to 10000"),
        (with_word(six, 48, 149_999), 5, 48, "course 1, first circumference 149999 (1,499.99 mm): must be 150000 to 1600000"),
        (old_survey(courses=four[:2] + [(160_221, 160_221, 25_000, 5_001)]), 5, 92, "course 3, thickness 5001 (50.01 mm): must be 100 to 5000"),
        (old_survey(deadwood=[(0, 1, 1), (0, 1, 10_000_001)]), 5, 84,
         "deadwood item 2, volume 10000001 (100,000.01 L): must be -10000000 to 10000000"),
        (with_word(six, 56, 99_899), 6, 0,
         "sum of the course lengths 99899 (998.99 mm): must be 99900 to 100100, the shell length L1 give or take 100 for each course"),
        (old_survey(left=157_000, right=157_000), 7, 0,
         "head diameter D2 48975 (489.75 mm): must be 50000 to 500000 and at most 10000 from DH 50000"),
        (old_survey(kind=2, l3=25_001), 14, 0,
         "head length L3 25001 (250.01 mm): must be at most 25000 for spherical caps, half the head diameter D2 50000"),
        (old_survey(deadwood=[(0, 5_000, 4_000)]), 9, 1,
         "row 1 at dip height 10000 (100.00 mm): must not be below the row before; the deadwood is larger than the room there"),
    ]:
        same(f"tankconvert, {sentence}", (f"refused {number} {place}\n".encode(), sentence + "\n"), convert(old))


def words():
    """Wrong words print the use on standard error and nothing else; --help prints it on standard output."""
    use, said = run(CONVERT, "--help")
    same("tankconvert --help, its first words", ("use: tankconvert [-f FILE] FROM", ""), (use[:31], said))
    old = (OLD / "six_rows.survey").read_bytes()
    for wrong in ([], ["56"], ["60"], ["048"], ["abc"], ["48", "48"], ["4"], ["480"], ["+48"], ["48.0"], [" 48"], [""], ["-f"], ["-f", "48"],
                  ["-f", "a", "56"], ["-f", "a", "48", "48"], ["48", "-f", "a"], ["-f", "a", "-f", "b", "48"], ["--help", "48"], ["4" * 5_000]):
        same(f"tankconvert {wrong}"[:60], ("", use), run(CONVERT, *wrong, survey=old))


# What was converted.


def whole():
    """A converted file with courses, deadwood and seams, and its table."""
    data = convert((OLD / "deadwood_and_flanges.survey").read_bytes())[0]
    return data, run(TABLE, survey=data)


def cut():
    """Cut anywhere, it is refused: with 1 inside the header, else with 3, for the first section that is no longer whole."""
    data = whole()[0]
    ends = [(word(data, 36 + 8 * i) + len(part), name) for i, (part, name) in enumerate(zip(sections(data), ("courses", "deadwood", "seams")))]
    same("ends of the sections", [(104, "courses"), (140, "deadwood"), (176, "seams")], ends)
    for length in range(len(data)):
        name = next(name for end, name in ends if length < end)
        place = word(data, {"courses": 36, "deadwood": 44, "seams": 52}[name])
        line, sentence = "refused 1 0\n", f"file of {length} bytes: must have 56 to 65536\n"
        if length >= HEAD:
            line = "refused 3 0\n"
            sentence = f"byte offset of the {name} {place}: its 3 records must start at byte 56 or later and end inside the file of {length} bytes\n"
        same(f"cut to {length} bytes", (line, sentence), run(TABLE, survey=data[:length]))


def moved():
    """With its sections anywhere, in any order, it gives the same table."""
    data, table = whole()
    for order in permutations(range(3)):
        for gaps in (0, 0, 0, 0), (1, 2, 3, 4), (0, 36, 0, 0), (7, 0, 1_000, 60_000):
            same(f"sections in order {order} with gaps {gaps}", table, run(TABLE, survey=placed(data[:32], sections(data), order, gaps)))


def damaged():
    """A seam's number past its limit is refused with 5 at its byte, and not before; a wrong count with 2, a wrong place with 3."""
    data, table = whole()
    start = word(data, 52)
    for course in 1, 2, 3:
        for name, part, limit, unit in ("number", 0, 12, ""), ("thickness", 4, 1_000, " (10.01 mm)"), ("width", 8, 5_000, " (50.01 mm)"):
            at = start + 12 * (course - 1) + part
            # the other two numbers are 0, and so is the tape's rise
            same(f"seams of course {course}, {name} at its limit", table, run(TABLE, survey=with_word(data, at, limit)))
            expected = f"refused 5 {at}\n", f"seams of course {course}, {name} {limit + 1}{unit}: must be 0 to {limit}\n"
            same(f"seams of course {course}, {name} past its limit", expected, run(TABLE, survey=with_word(data, at, limit + 1)))
            same(f"seams of course {course}, {name} far past it", expected[0], run(TABLE, survey=with_word(data, at, 4_294_967_295))[0])
    for count in 0, 1, 2, 4, 40, 4_294_967_295:
        expected = "refused 2 0\n", f"seam count {count}: must be 3, the course count\n"
        same(f"{count} seam records for three courses", expected, run(TABLE, survey=with_word(data, 48, count)))
    for at in [*range(start), *range(start + 1, len(data) + 2), 4_294_967_260, 4_294_967_295]:
        problem = "must start at byte 56 or later and end inside the file of 176 bytes"
        if at + 36 > 56 and at < 104:
            problem = "must not overlap the courses"
        elif 104 <= at < 140:
            problem = "must not overlap the deadwood"
        expected = "refused 3 0\n", f"byte offset of the seams {at}: its 3 records {problem}\n"
        same(f"the seams at byte {at}", expected, run(TABLE, survey=with_word(data, 52, at)))


# The tape over the seams.

WALL = 1_000
# N, t, w, d, and the two terms of document 000's formula 1, 2Ntw/d + (8Nt/3)·root(t/d), worked out by hand: the first to the nearest u, the second
# cut to a whole u, which is the largest whose square does not exceed 64·N²·t³/(9·d)
TERMS = [
    # 2·2·200·1,200/260,000 = 960,000/260,000 = 3.69; 8·2·200/3 = 1,066.67, root(200/260,000) = 0.027735, 1,066.67·0.027735 = 29.58
    (2, 200, 1_200, 260_000, 4, 29),
    # 2·1·250·1,500/260,000 = 750,000/260,000 = 2.88; 8·1·250/3 = 666.67, root(250/260,000) = 0.031009, 666.67·0.031009 = 20.67
    (1, 250, 1_500, 260_000, 3, 20),
    # 2·3·200·1,200/50,000 = 1,440,000/50,000 = 28.8; 8·3·200/3 = 1,600, root(200/50,000) = 0.063246, 1,600·0.063246 = 101.19
    (3, 200, 1_200, 50_000, 29, 101),
    # 2·1·125·100/50,000 = 25,000/50,000, an exact half, goes to 0; 8·1·125/3 = 333.33, root(125/50,000) = 0.05, 333.33·0.05 = 16.67
    (1, 125, 100, 50_000, 0, 16),
    # the same with one u more of width: 25,250/50,000 = 0.505
    (1, 125, 101, 50_000, 1, 16),
    # 2·1·125·300/50,000 = 75,000/50,000 = 1.5, a half that goes to 2, as does 125,000/50,000 = 2.5; with one u less of width the first is 1.495
    (1, 125, 300, 50_000, 2, 16),
    (1, 125, 500, 50_000, 2, 16),
    (1, 125, 299, 50_000, 1, 16),
    # no width: 0; 8·3·500/3 = 4,000, root(500/50,000) = 0.1, 4,000·0.1 = 400 exactly
    (3, 500, 0, 50_000, 0, 400),
    # one u more of diameter: 400·root(50,000/50,001) = 399.996
    (3, 500, 0, 50_001, 0, 399),
    # the most and largest: 2·12·1,000·5,000/50,000 = 2,400; 8·12·1,000/3 = 32,000, root(1,000/50,000) = 0.141421, 32,000·0.141421 = 4,525.48
    (12, 1_000, 5_000, 50_000, 2_400, 4_525),
    # the same in the largest tank: 120,000,000/500,000 = 240; root(1,000/500,000) = 0.0447214, 32,000·0.0447214 = 1,431.08
    (12, 1_000, 5_000, 500_000, 240, 1_431),
    (1, 1, 1, 50_000, 0, 0),  # one seam too small to matter: 2/50,000; 8/3·root(1/50,000) = 0.0119
    (0, 1_000, 5_000, 50_000, 0, 0),  # no seams
    (12, 0, 5_000, 50_000, 0, 0),  # flush seams
]


def outer(reading):
    """The outer diameter of a course whose two circumferences are this one."""
    return nearest(113 * 2 * reading, 710)


def table_of(dh, readings, seams):
    """The table of a long tank. Its ends are always read the same, its flanges show D2."""
    length = 3_000_000 // len(readings)
    ends = (dh + WALL) * 355 // 113
    return run(TABLE, survey=survey(dh=dh, l1=3_000_000, left=ends, right=ends, l2=20_000, seams=seams,
                                    courses=[(*pair, length, WALL // 2) for pair in readings]))


def formula_1():
    """Tapes that read long by the two terms give the diameter of tapes that do not. The diameter is a whole u, which three or four readings give:
    the least and the greatest of these show that the readings lose the terms' sum and neither more nor less."""
    for *seams, dh, first, second in TERMS:
        rise = first + second
        near = (dh + WALL) * 355 // 113
        readings = [reading for reading in range(near - 5, near + 6) if outer(reading) == dh + WALL]
        least, greatest = readings[0], readings[-1]
        what = f"{seams} in {dh}"
        table = table_of(dh, [(least, least)], [(0, 0, 0)])
        same(f"{what}, D1 is DH: the first row and the errors", ("0.00 0.00", ""), (table[0].split("\n")[1], table[1]))
        same(f"{what}, the greatest reading alike", table, table_of(dh, [(greatest, greatest)], [(0, 0, 0)]))
        for name, reading, other in ("least", least, least - 1), ("greatest", greatest, greatest + 1):
            same(f"{what}, the {name} reading and the tape's rise", table, table_of(dh, [(reading + rise,) * 2], [seams]))
            same(f"{what}, one u past it shows", True, table != table_of(dh, [(other + rise,) * 2], [seams]))


def whose_seams():
    """Each course loses its own seams' rise from both its readings, wherever the seam section stands; the end readings lose none."""
    def tank(rises, seams):
        lengths = 300_000, 500_000, 700_000
        readings = [(823_100 + first, 823_050 + second) for first, second in rises]
        return survey(kind=1, dh=260_000, l1=1_500_000, left=823_090, right=823_100, l2=4_000, l3=65_000, step=10_000, seams=seams,
                      courses=[(*pair, length, 1_000) for pair, length in zip(readings, lengths)])

    none, two, one = (0, 0, 0), (2, 200, 1_200), (1, 250, 1_500)
    plain = run(TABLE, survey=tank([(0, 0)] * 3, [none] * 3))
    same("a table without seams", ("rows 27", ""), (plain[0].partition("\n")[0], plain[1]))
    same("each course its own", plain, run(TABLE, survey=tank([(33, 33), (0, 0), (23, 23)], [two, none, one])))
    same("the middle one", plain, run(TABLE, survey=tank([(0, 0), (33, 33), (0, 0)], [none, two, none])))
    same("none from another course", True, plain != run(TABLE, survey=tank([(0, 0), (0, 0), (2_446, 2_446)], [(12, 1_000, 5_000), none, none])))
    same("not from the first reading alone", True, plain != run(TABLE, survey=tank([(66, 0)] * 3, [(4, 200, 1_200)] * 3)))
    data = tank([(33, 33), (0, 0), (23, 23)], [two, none, one])
    for order in permutations(range(3)):
        same(f"sections in order {order}", plain, run(TABLE, survey=placed(data[:32], sections(data), order, (3, 1, 0, 2))))


try_all("converted files and seams", old_examples, moved_old_files, every_word, refused_old_files, words, cut, moved, damaged, formula_1, whose_seams)
