#!/usr/bin/env python3
"""Tries the programs as a shift meets them, and as somebody who wishes them ill: slow, full and closed outputs, unreadable inputs, wrong
words, each refusal in words, several figures in a call. Runs target/bin/tanktable and target/bin/tanklookup, and target/bin/tankconvert where its
streams are concerned (the rest is in tests/convert.py); says what was tried.
"""
import os
import signal
import subprocess
import tempfile
import threading
import time

from surveys import CONVERT, LOOKUP, ROOT, SIX_ROWS, TABLE, run, same, survey, try_all


def with_lengths(lengths):
    """The six rows' tank with courses of these lengths."""
    return survey(courses=[(160_221, 160_221, length, 500) for length in lengths])


def largest():
    """A table of the most rows, 5,001."""
    return survey(kind=1, dh=500_000, l1=3_000_000, left=1_573_939, right=1_573_939, l2=20_000, l3=250_000, step=100,
                  courses=[(1_573_939, 1_573_939, 75_000, 500)] * 40)


def outputs():
    """Rows that can't be written are told; those of a slow reader are not lost."""
    whole, said = run(TABLE, survey=largest())
    same("the largest table's lines", 5_002, whole.count("\n"))
    same("the largest table's errors", "", said)

    def slow_reader(pause):
        read, write = os.pipe()
        os.set_blocking(write, False)
        with tempfile.TemporaryFile() as file:
            file.write(largest())
            file.seek(0)
            program = subprocess.Popen([TABLE], stdin=file, stdout=write, stderr=subprocess.PIPE)
        os.close(write)
        time.sleep(pause)
        got = b""
        while piece := os.read(read, 1_500):
            got += piece
            time.sleep(0.0005)
        os.close(read)
        return got.decode(), program.communicate(timeout=60)[1].decode()

    same("a pipe that does not block, read slowly", (whole, ""), slow_reader(0.0))
    same("a pipe that does not block, read late and slowly", (whole, ""), slow_reader(1.5))

    with tempfile.TemporaryFile() as file:
        file.write(largest())
        for program, words in ((TABLE, []), (LOOKUP, ["litres", "50"]), (CONVERT, ["48"])):
            def said_of(**streams):
                file.seek(0)
                done = subprocess.run([program, *words], stdin=file, stderr=subprocess.PIPE, timeout=60, **streams)
                return done.returncode, done.stderr.decode()

            with open("/dev/full", "wb") as full:
                same(f"{program.name} on a full disk", (0, "standard output: No space left on device\n"), said_of(stdout=full))
            same(f"{program.name} with standard output closed", (0, "standard output: Bad file descriptor\n"), said_of(preexec_fn=lambda: os.close(1)))
            read, write = os.pipe()
            os.close(read)
            same(f"{program.name} to a reader that is gone", (0, "standard output: Broken pipe\n"),
                 said_of(stdout=write, restore_signals=False, preexec_fn=lambda: signal.signal(signal.SIGPIPE, signal.SIG_IGN)))
            os.close(write)


def inputs():
    """A survey by name, on standard input, and what can't be read."""
    table = (ROOT / "examples/six_rows.txt").read_text()
    named = str(ROOT / "examples/six_rows.survey")
    same("tanktable -f FILE", (table, ""), run(TABLE, "-f", named, survey=b""))
    same("tanklookup -f FILE litres", ("13.98\n", ""), run(LOOKUP, "-f", named, "litres", "50", survey=b""))
    for program, words in ((TABLE, []), (LOOKUP, ["litres", "50"]), (CONVERT, ["48"])):
        name = program.name
        same(f"{name} -f of no file", ("", "nowhere.survey: No such file or directory\n"), run(program, "-f", "nowhere.survey", *words))
        same(f"{name} -f of a directory", ("", "/: Is a directory\n"), run(program, "-f", "/", *words))
        same(f"{name} -f of an empty name", ("", ": No such file or directory\n"), run(program, "-f", "", *words))
        same(f"{name} -f of a name that is too long", ("", "-f FILE: File name too long\n"), run(program, "-f", "x" * 5_000, *words))
        folder = os.open("/", os.O_RDONLY)
        done = subprocess.run([program, *words], stdin=folder, capture_output=True, timeout=60)
        same(f"{name} with a directory on standard input", (b"", b"standard input: Is a directory\n"), (done.stdout, done.stderr))
        os.close(folder)
        done = subprocess.run([program, *words], capture_output=True, timeout=60, preexec_fn=lambda: os.close(0))
        same(f"{name} with standard input closed", (b"", b"standard input: Bad file descriptor\n"), (done.stdout, done.stderr))
        same(f"{name} with nothing on standard input", "refused 1 0\n", run(program, *words, survey=b"")[0])

    # a pipe that gives its bytes late, in pieces, and does not block
    read, write = os.pipe()
    os.set_blocking(read, False)

    def feed():
        for at in range(0, len(SIX_ROWS), 10):
            time.sleep(0.05)
            os.write(write, SIX_ROWS[at:at + 10])
        os.close(write)

    program = subprocess.Popen([TABLE], stdin=read, stdout=subprocess.PIPE, stderr=subprocess.PIPE)
    threading.Thread(target=feed).start()
    same("a pipe that does not block and gives its bytes late", (table.encode(), b""), program.communicate(timeout=60))
    os.close(read)


TABLE_USE = """use: tanktable [-f FILE]
Prints the capacity table of a survey, which is read from FILE or from standard input: dip heights in mm, and litres.
"""
LOOKUP_USE = """use: tanklookup [-f FILE] litres MM ..                the litres at each dip height
     tanklookup [-f FILE] height LITRES ..            the lowest dip height at which the tank holds each volume
     tanklookup [-f FILE] delivered BEFORE AFTER      the litres at dip height AFTER less those at BEFORE, with the sign
The survey is read from FILE or from standard input. MM, LITRES, BEFORE and AFTER are figures such as 1250 or 1250.75.
"""


def words():
    """Wrong words print the use on standard error and nothing else; --help prints it on standard output."""
    same("tanktable --help", (TABLE_USE, ""), run(TABLE, "--help"))
    same("tanklookup --help", (LOOKUP_USE, ""), run(LOOKUP, "--help"))
    for wrong in (["-f"], ["x"], ["-f", "a", "b"], ["--help", "x"], [""], ["x" * 5_000], ["-f", "a", "-f", "b"]):
        same(f"tanktable {wrong}"[:60], ("", TABLE_USE), run(TABLE, *wrong))
    for wrong in ([], ["-f"], ["-f", "a"], ["litres"], ["depth", "50"], ["litres", "5."], ["litres", "5.000"], ["litres", "-1"], ["litres", ""],
                  ["litres", "50", "x"], ["litres", "x", "50"], ["height", "99999999.99"], ["height", "1", "2", "3,0"], ["delivered"],
                  ["delivered", "50"], ["delivered", "50", "60", "70"], ["delivered", "50", "x"], ["delivered", "x", "50"], ["litre", "50"],
                  ["litres", "5" * 5_000], ["x" * 5_000, "50"], ["--help", "x"]):
        same(f"tanklookup {wrong}"[:60], ("", LOOKUP_USE), run(LOOKUP, *wrong))


def figures():
    """Several figures in one call, a line each, and what was delivered."""
    same("two heights", ("13.98\n27.96\n", ""), run(LOOKUP, "litres", "50", "100"))
    same("four volumes", ("49.99\n0.00\n499.99\n99.99\n", ""), run(LOOKUP, "height", "13.98", "0", "196.35", "27.96"))
    same("thirty heights", ("13.98\n" * 30, ""), run(LOOKUP, "litres", *["50.0"] * 30))
    high = "dip height 50001 (500.01 mm): must be at most DH 50000\n"
    same("a height above the tank among others", ("13.98\nrefused 12 0\n196.35\n", high), run(LOOKUP, "litres", "50", "500.01", "500"))
    same("a refused survey is told once", "refused 5 4\n", run(LOOKUP, "litres", "1", "2", "3", survey=survey(dh=49_999))[0])
    same("delivered", ("+13.98\n", ""), run(LOOKUP, "delivered", "50", "100"))
    same("taken", ("-13.98\n", ""), run(LOOKUP, "delivered", "100", "50"))
    same("neither", ("0.00\n", ""), run(LOOKUP, "delivered", "50", "50.0"))
    same("the whole tank", ("+196.35\n", ""), run(LOOKUP, "delivered", "0", "500"))
    same("delivered from above the tank", ("refused 12 0\n", high), run(LOOKUP, "delivered", "500.01", "600"))
    same("delivered to above the tank", ("refused 12 0\n", high), run(LOOKUP, "delivered", "50", "500.01"))


def refusals():
    """Each refusal in words: standard output as document 01 has it, and one more line on standard error."""
    low = (149_999, 160_221, 100_000, 500)
    rising = (150_129, 160_221, 100_000, 500)
    four = [(160_221, 160_221, 25_000, 500)] * 4
    six = dict(kind=1, dh=260_000, l1=100_000, left=823_097, right=823_097, l3=65_000, courses=[(823_097, 823_097, 25_000, 1_000)] * 4)
    for data, number, place, sentence in [
        (b"", 1, 0, "file of 0 bytes: must have 56 to 65536"),
        (SIX_ROWS[:55], 1, 0, "file of 55 bytes: must have 56 to 65536"),
        (SIX_ROWS + bytes(65_536), 1, 0, "file of more than 65536 bytes: must have 56 to 65536"),
        (survey(courses=[]), 2, 0, "course count 0: must be 1 to 40"),
        (survey(courses=[low] * 41), 2, 0, "course count 41: must be 1 to 40"),
        (survey(deadwood=[(0, 1, 1)] * 65), 2, 0, "deadwood count 65: must be 0 to 64"),
        (survey(deadwood=[(0, 1, 1)] * 65, seams=[]), 2, 0, "deadwood count 65: must be 0 to 64"),
        (survey(seams=[]), 2, 0, "seam count 0: must be 1, the course count"),
        (survey(seams=[(0, 0, 0)] * 2), 2, 0, "seam count 2: must be 1, the course count"),
        (survey(courses=four, seams=[(0, 0, 0)] * 3), 2, 0, "seam count 3: must be 4, the course count"),
        ((ROOT / "examples/old/six_rows.survey").read_bytes(), 2, 0, "seam count 160221: must be 1, the course count"),
        (survey(places=(55, 0, 72)), 3, 0,
         "byte offset of the courses 55: its 1 records must start at byte 56 or later and end inside the file of 84 bytes"),
        (survey(places=(4_294_967_295, 0, 72)), 3, 0,
         "byte offset of the courses 4294967295: its 1 records must start at byte 56 or later and end inside the file of 84 bytes"),
        (survey(places=(56, 85, 84), deadwood=[(0, 1, 1)]), 3, 0,
         "byte offset of the deadwood 85: its 1 records must start at byte 56 or later and end inside the file of 96 bytes"),
        (survey(places=(56, 68, 84), deadwood=[(0, 1, 1)]), 3, 0, "byte offset of the deadwood 68: its 1 records must not overlap the courses"),
        (survey(places=(56, 68, 60), deadwood=[(0, 1, 1)]), 3, 0, "byte offset of the deadwood 68: its 1 records must not overlap the courses"),
        (survey(places=(56, 0, 71)), 3, 0, "byte offset of the seams 71: its 1 records must not overlap the courses"),
        (survey(places=(56, 200, 60), deadwood=[(0, 1, 1)]), 3, 0, "byte offset of the seams 60: its 1 records must not overlap the courses"),
        (survey(places=(56, 200, 200), deadwood=[(0, 1, 1)]), 3, 0,
         "byte offset of the deadwood 200: its 1 records must start at byte 56 or later and end inside the file of 96 bytes"),
        (survey(places=(56, 72, 83), deadwood=[(0, 1, 1)]), 3, 0, "byte offset of the seams 83: its 1 records must not overlap the deadwood"),
        (survey(places=(68, 0, 55)), 3, 0,
         "byte offset of the seams 55: its 1 records must start at byte 56 or later and end inside the file of 84 bytes"),
        (survey(places=(56, 0, 73)), 3, 0,
         "byte offset of the seams 73: its 1 records must start at byte 56 or later and end inside the file of 84 bytes"),
        (survey(places=(56, 0, 4_294_967_295)), 3, 0,
         "byte offset of the seams 4294967295: its 1 records must start at byte 56 or later and end inside the file of 84 bytes"),
        (survey(kind=3), 4, 0, "head kind 3: must be 0 (flat), 1 (half-ellipsoid) or 2 (spherical cap)"),
        (survey(kind=4_294_967_295), 4, 0, "head kind 4294967295: must be 0 (flat), 1 (half-ellipsoid) or 2 (spherical cap)"),
        (survey(dh=49_999), 5, 4, "dip diameter DH 49999 (499.99 mm): must be 50000 to 500000"),
        (survey(l1=3_000_001), 5, 8, "shell length L1 3000001 (30,000.01 mm): must be 100000 to 3000000"),
        (survey(left=0), 5, 12, "circumference left 0 (0.00 mm): must be 150000 to 1600000"),
        (survey(right=1_600_001), 5, 16, "circumference right 1600001 (16,000.01 mm): must be 150000 to 1600000"),
        (survey(l2=20_001), 5, 20, "flange length L2 20001 (200.01 mm): must be 0 to 20000"),
        (survey(l3=5), 5, 24, "head length L3 5 (0.05 mm): must be 0 to 0 for this kind of head"),
        (survey(kind=1), 5, 24, "head length L3 0 (0.00 mm): must be 1 to 260000 for this kind of head"),
        (survey(kind=2), 5, 24, "head length L3 0 (0.00 mm): must be 1 to 260000 for this kind of head"),
        (survey(kind=2, l3=260_001), 5, 24, "head length L3 260001 (2,600.01 mm): must be 1 to 260000 for this kind of head"),
        (survey(step=4_294_967_295), 5, 28, "step 4294967295 (42,949,672.95 mm): must be 100 to 10000"),
        (survey(courses=[low]), 5, 56, "course 1, first circumference 149999 (1,499.99 mm): must be 150000 to 1600000"),
        (survey(courses=four[:3] + [(160_221, 1, 25_000, 500)]), 5, 108, "course 4, second circumference 1 (0.01 mm): must be 150000 to 1600000"),
        (survey(courses=four[:1] + [(160_221, 160_221, 0, 500)]), 5, 80, "course 2, length 0 (0.00 mm): must be 1 to 3000000"),
        (survey(courses=four[:2] + [(160_221, 160_221, 25_000, 5_001)]), 5, 100, "course 3, thickness 5001 (50.01 mm): must be 100 to 5000"),
        (survey(**six, deadwood=[(0, 1, 1), (0, 270_000, 1)]), 5, 136,
         "deadwood item 2, high height 270000 (2,700.00 mm): must be above its low height and at most DH 260000"),
        (survey(deadwood=[(5, 5, 1)]), 5, 76, "deadwood item 1, high height 5 (0.05 mm): must be above its low height and at most DH 50000"),
        (survey(deadwood=[(0, 1, 1)] * 2 + [(0, 1, -10_000_001)]), 5, 104,
         "deadwood item 3, volume -10000001 (-100,000.01 L): must be -10000000 to 10000000"),
        (survey(deadwood=[(0, 1, 2_147_483_647)]), 5, 80, "deadwood item 1, volume 2147483647 (21,474,836.47 L): must be -10000000 to 10000000"),
        (survey(deadwood=[(0, 1, -2_147_483_648)]), 5, 80, "deadwood item 1, volume -2147483648 (-21,474,836.48 L): must be -10000000 to 10000000"),
        (survey(seams=[(13, 0, 0)]), 5, 72, "seams of course 1, number 13: must be 0 to 12"),
        (survey(seams=[(4_294_967_295, 1_001, 5_001)]), 5, 72, "seams of course 1, number 4294967295: must be 0 to 12"),
        (survey(seams=[(12, 1_001, 5_001)]), 5, 76, "seams of course 1, thickness 1001 (10.01 mm): must be 0 to 1000"),
        (survey(seams=[(0, 0, 5_001)]), 5, 80, "seams of course 1, width 5001 (50.01 mm): must be 0 to 5000"),
        (survey(courses=four, seams=[(0, 0, 0)] * 3 + [(13, 0, 0)]), 5, 156, "seams of course 4, number 13: must be 0 to 12"),
        (survey(courses=four, deadwood=[(0, 1, 1)], seams=[(0, 0, 0), (0, 4_294_967_295, 0)] * 2), 5, 148,
         "seams of course 2, thickness 4294967295 (42,949,672.95 mm): must be 0 to 1000"),
        # the tape rises by 29 + 101 over three seams: the nearest of 2·3·200·1,200/50,000 = 28.8, and the root of 64·9·200³/(9·50,000) = 10,240
        (survey(courses=[rising], seams=[(3, 200, 1_200)]), 5, 56,
         "course 1, first circumference less the tape rise over its seams 149999 (1,499.99 mm): must be 150000 to 1600000"),
        (survey(courses=[(160_221, 150_129, 100_000, 500)], seams=[(3, 200, 1_200)]), 5, 60,
         "course 1, second circumference less the tape rise over its seams 149999 (1,499.99 mm): must be 150000 to 1600000"),
        # and by 2,400 + 4,525 over the most and largest: the root is that of 64·144·1,000³/(9·50,000) = 20,480,000
        (survey(courses=four[:3] + [(150_000, 150_000, 25_000, 500)], seams=[(0, 0, 0)] * 3 + [(12, 1_000, 5_000)]), 5, 104,
         "course 4, first circumference less the tape rise over its seams 143075 (1,430.75 mm): must be 150000 to 1600000"),
        # 5 looks at the readings as they stand, then at the seams, and last at the corrected readings
        (survey(courses=[rising, low], seams=[(3, 200, 1_200)] * 2), 5, 72,
         "course 2, first circumference 149999 (1,499.99 mm): must be 150000 to 1600000"),
        (survey(courses=[rising] * 2, seams=[(3, 200, 1_200), (0, 0, 5_001)]), 5, 108, "seams of course 2, width 5001 (50.01 mm): must be 0 to 5000"),
        (survey(courses=four[:3]), 6, 0,
         "sum of the course lengths 75000 (750.00 mm): must be 99700 to 100300, the shell length L1 give or take 100 for each course"),
        (with_lengths([99_899]), 6, 0,
         "sum of the course lengths 99899 (998.99 mm): must be 99900 to 100100, the shell length L1 give or take 100 for each course"),
        (with_lengths([50_000, 50_201]), 6, 0,
         "sum of the course lengths 100201 (1,002.01 mm): must be 99800 to 100200, the shell length L1 give or take 100 for each course"),
        (with_lengths([2_500] * 39 + [6_501]), 6, 0,
         "sum of the course lengths 104001 (1,040.01 mm): must be 96000 to 104000, the shell length L1 give or take 100 for each course"),
        (survey(l1=3_000_000), 6, 0,
         "sum of the course lengths 100000 (1,000.00 mm): must be 2999900 to 3000100, the shell length L1 give or take 100 for each course"),
        (survey(courses=[(200_000, 200_000, 100_000, 500)]), 7, 0,
         "shell diameter D1 62662 (626.62 mm): must be 50000 to 500000 and at most 10000 from DH 50000"),
        (survey(courses=[(150_130, 150_130, 100_000, 500)], seams=[(3, 200, 1_200)]), 7, 0,
         "shell diameter D1 46746 (467.46 mm): must be 50000 to 500000 and at most 10000 from DH 50000"),
        (survey(left=157_000, right=157_000), 7, 0, "head diameter D2 48975 (489.75 mm): must be 50000 to 500000 and at most 10000 from DH 50000"),
        (survey(kind=2, l3=25_001, l1=3_000_000), 6, 0,
         "sum of the course lengths 100000 (1,000.00 mm): must be 2999900 to 3000100, the shell length L1 give or take 100 for each course"),
        (survey(kind=2, l3=25_001, courses=[(200_000, 200_000, 100_000, 500)]), 7, 0,
         "shell diameter D1 62662 (626.62 mm): must be 50000 to 500000 and at most 10000 from DH 50000"),
        (survey(kind=2, l3=25_001, left=157_000, right=157_000), 7, 0,
         "head diameter D2 48975 (489.75 mm): must be 50000 to 500000 and at most 10000 from DH 50000"),
        (survey(kind=2, l3=25_001), 14, 0,
         "head length L3 25001 (250.01 mm): must be at most 25000 for spherical caps, half the head diameter D2 50000"),
        (survey(kind=2, l3=25_001, left=160_224, right=160_225), 14, 0,
         "head length L3 25001 (250.01 mm): must be at most 25000 for spherical caps, half the head diameter D2 50001"),
        (survey(kind=2, l3=260_000), 14, 0,
         "head length L3 260000 (2,600.00 mm): must be at most 25000 for spherical caps, half the head diameter D2 50000"),
        (survey(kind=2, l3=25_001, deadwood=[(0, 5_000, 4_000)]), 14, 0,
         "head length L3 25001 (250.01 mm): must be at most 25000 for spherical caps, half the head diameter D2 50000"),
        (survey(deadwood=[(0, 5_000, 4_000)]), 9, 1,
         "row 1 at dip height 10000 (100.00 mm): must not be below the row before; the deadwood is larger than the room there"),
    ]:
        line = f"refused {number} {place}\n"
        same(f"tanktable, {sentence}", (line, sentence + "\n"), run(TABLE, survey=data))
        same(f"tanklookup, {sentence}", (line, sentence + "\n"), run(LOOKUP, "litres", "0", survey=data))
        same(f"tanklookup height, {sentence}", (line, sentence + "\n"), run(LOOKUP, "height", "0", survey=data))
        same(f"tanklookup delivered, {sentence}", (line, sentence + "\n"), run(LOOKUP, "delivered", "0", "1", survey=data))
    same("refusal 12", ("refused 12 0\n", "dip height 50001 (500.01 mm): must be at most DH 50000\n"), run(LOOKUP, "litres", "500.01"))
    same("refusal 13", ("refused 13 0\n", "volume 19636 (196.36 L): must be at most the last row, 19635\n"), run(LOOKUP, "height", "196.36"))


def courses():
    """Courses that miss L1 by 1.00 mm each and no more: D1 goes by their own lengths, and the shell is L1 long, so the table is the same."""
    table = run(TABLE)
    for lengths in [99_900], [100_100], [50_000, 49_800], [60_000, 30_000, 10_300], [1, 99_999], [2_500] * 39 + [6_500], [2_400] * 40:
        missed = sum(lengths) - 100_000
        same(f"courses that miss by {missed}, {len(lengths)} of them", table, run(TABLE, survey=with_lengths(lengths)))


def heads():
    """Spherical caps up to half as long as D2 get their table; the diameter is no limit to half-ellipsoids."""
    for what, data in [
        ("caps half as long as D2", survey(kind=2, l3=25_000)),
        ("caps half as long as D2 but for one u", survey(kind=2, l3=25_000, left=160_224, right=160_225)),
        ("caps one u long", survey(kind=2, l3=1)),
        ("half-ellipsoids longer than half of D2", survey(kind=1, l3=25_001)),
        ("the longest half-ellipsoids", survey(kind=1, l3=260_000)),
    ]:
        table, said = run(TABLE, survey=data)
        same(what, ("rows 6", ""), (table.partition("\n")[0], said))


try_all("the programs on the shift", outputs, inputs, words, figures, refusals, courses, heads)
