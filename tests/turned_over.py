#!/usr/bin/env python3
"""Turns tables over, as surveyors do (document 02, E7): where D1 = D2 = DH, the heads are flat or half-ellipsoids and there is no deadwood, two rows at mirrored
heights are together the last row within 3 v. Runs target/bin/tanktable on the examples, on tanks at every millimetre, and on tanks that miss one premise:
some are off by more, some are not. Says what was found.
"""
from surveys import ROOT, TABLE, printed_rows, run, same, tank, try_all

TOLERANCE = 3  # v
HALF_ELLIPSOID = 1


def misses(table):
    """By how much each two mirrored rows have more than the last row, or, below zero, less."""
    dh = max(table)
    return [row + table[dh - height] - table[dh] for height, row in table.items() if dh - height in table]


def ends(found):
    """The least and the greatest."""
    return min(found), max(found)


def table_of(survey):
    """The rows that tanktable prints."""
    return printed_rows(run(TABLE, survey=survey)[0])


def examples():
    """Three examples meet the premises; two do not, and are off by more."""
    for name, rows, found in [
        ("six_rows", 6, (0, 0)),
        ("fifty_cubic_metres", 41, (-2, 0)),
        ("turned_over", 17, (0, 3)),
        ("seams", 27, (0, 10)),  # an item of deadwood, and D2 is 260,001 where DH is 260,000
        ("deadwood_and_flanges", 2, (65, 65)),  # D1 is 199,797 and D2 199,796, so that there is liquid at 0, and DH 199,500 is not full
    ]:
        off = misses(table_of((ROOT / f"examples/{name}.survey").read_bytes()))
        same(f"{name}: mirrored rows", (rows, found), (len(off), ends(off)))


TANKS = [  # DH, step, and what else the tank has
    (50_000, 100, {}),
    (50_001, 2_381, {}),
    (99_999, 271, dict(l1=333_333, l2=777)),
    (113_000, 100, dict(kind=HALF_ELLIPSOID, l1=200_000, l2=4_000, l3=15_000)),
    (160_000, 100, dict(kind=HALF_ELLIPSOID, l1=480_000, l2=6_000, l3=40_000)),
    (200_000, 100, dict(kind=HALF_ELLIPSOID, l1=600_000, l2=4_000, l3=35_000)),
    (299_997, 813, dict(kind=HALF_ELLIPSOID, l1=1_234_567, l2=8_901, l3=75_001)),
    (500_000, 100, dict(kind=HALF_ELLIPSOID, l1=3_000_000, l2=20_000, l3=260_000)),
]


def all_rows():
    """Every row of tanks that meet the premises, small and large, of odd and even diameters. Three v are met both ways, so no less will do."""
    seen = set()
    for dh, step, parts in TANKS:
        table = table_of(tank(dh, step=step, **parts))
        off = misses(table)
        same(f"DH {dh}, {parts}: every row has its mirror", dh // step + 1, len(off))
        same(f"DH {dh}, {parts}: rows off by more than {TOLERANCE} v", [], [miss for miss in off if abs(miss) > TOLERANCE])
        print(f"  DH {dh}: {len(off)} rows, off by {min(off)} to {max(off)} v")
        seen |= set(off)
    same("what rows are off by", set(range(-TOLERANCE, TOLERANCE + 1)), seen)


EXAMPLE = dict(kind=HALF_ELLIPSOID, l1=480_000, l2=6_000, l3=40_000, step=100)  # with a row at every millimetre
LONG_HEADS = {**EXAMPLE, "l2": 20_000, "l3": 80_000}


def without_a_premise():
    """Tanks that miss one of them. For D2 below DH flanges and heads are longer than the example's: a level of those is too little to show."""
    for what, survey in [
        ("D1 above DH by 0.50 mm", tank(160_000, d1=160_050, **EXAMPLE)),
        ("D1 below DH by 0.49 mm", tank(160_000, d1=159_951, **EXAMPLE)),
        ("D2 above DH by 5.00 mm", tank(160_000, d2=160_500, **EXAMPLE)),
        ("D2 below DH by 4.99 mm, long heads", tank(160_000, d2=159_501, **LONG_HEADS)),
        ("deadwood below the middle", tank(160_000, deadwood=[(10_000, 70_000, 500)], **EXAMPLE)),
        ("a sump", tank(160_000, deadwood=[(0, 5_000, -500)], **EXAMPLE)),
    ]:
        most = max(misses(table_of(survey)), key=abs)
        same(f"{what}: off by more than {TOLERANCE} v ({most})", True, abs(most) > TOLERANCE)
        print(f"  {what}: off by up to {most} v")


def within_all_the_same():
    """A premise that is missed need not show: not where a part is small, nor below DH by an even number, where both heights and the full tank are
    corrected alike."""
    for what, survey in [
        ("D2 below DH by 4.99 mm", tank(160_000, d2=159_501, **EXAMPLE)),
        ("D1 below DH by 0.50 mm", tank(160_000, d1=159_950, **EXAMPLE)),
        ("D2 below DH by 5.00 mm, long heads", tank(160_000, d2=159_500, **LONG_HEADS)),
    ]:
        least, most = ends(misses(table_of(survey)))
        same(f"{what}: within {TOLERANCE} v ({least} to {most})", True, -TOLERANCE <= least and most <= TOLERANCE)
        print(f"  {what}: off by {least} to {most} v")


def end_to_end():
    """Two shells of one diameter laid end to end hold the sum. Each table is rounded by itself, so rows may be 1 v off."""
    for dh, step, one, other in (50_000, 100, 123_456, 345_678), (160_000, 1_000, 240_000, 240_000), (99_999, 271, 100_000, 2_900_000):
        tables = [table_of(tank(dh, step=step, l1=length)) for length in (one, other, one + other)]
        off = [long - a - b for a, b, long in zip(*(table.values() for table in tables))]
        same(f"{one} and {other} of {dh}: rows", dh // step + 1, len(off))
        same(f"{one} and {other} of {dh}: off by more than 1 v", set(), set(off) - {-1, 0, 1})


try_all("tables turned over", examples, all_rows, without_a_premise, within_all_the_same, end_to_end)
