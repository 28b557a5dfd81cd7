#!/usr/bin/env bash
# Runs the programs against expected output: tanktable on every example, whose table stands beside it, on one with bytes in no section, on a
# file of one byte too many and on one that never ends, of which no more is read than tells that it is too long; and tanklookup.
. "$(dirname "$0")/failures.sh"
program=target/bin/tanktable
lookup=target/bin/tanklookup

# what is shown, what was expected, what came
same() {
    if [ "$2" = "$3" ]; then
        echo "ok: $1"
    else
        fail "$1"
        diff <(printf '%s\n' "$2") <(printf '%s\n' "$3") | head -5
    fi
}

for survey in examples/*.survey; do
    same "$survey" "$(cat "${survey%.survey}.txt")" "$("$program" <"$survey" 2>/dev/null)"
done
same "65,537 bytes" "refused 1 0" "$(head -c 65537 /dev/zero | "$program" 2>/dev/null)"
same "a file that never ends" "refused 1 0" "$(timeout 10 "$program" </dev/zero 2>/dev/null)"
same "an empty file" "refused 1 0" "$("$program" </dev/null 2>/dev/null)"
same "bytes behind the sections" "$(cat examples/six_rows.txt)" "$({ cat examples/six_rows.survey; echo 'bytes in no section'; } | "$program" 2>/dev/null)"

# what tanklookup answers; what either program says on standard error is tried by tests/shift.py
asked() { "$lookup" "${@:2}" <"examples/$1.survey" 2>/dev/null; }
same "height 50.00 mm" "13.98" "$(asked six_rows litres 50.00)"
same "height 50 mm" "13.98" "$(asked six_rows litres 50)"
same "13.98 litres" "49.99" "$(asked six_rows height 13.98)"
same "the full tank's litres" "196.35" "$(asked six_rows litres 500.0)"
same "the full tank's lowest height" "499.99" "$(asked six_rows height 196.35)"
same "a height above the tank" "refused 12 0" "$(asked six_rows litres 500.01)"
same "more than the last row" "refused 13 0" "$(asked six_rows height 196.36)"
same "nothing, in a tank whose first row is above zero" "0.00" "$(asked deadwood_and_flanges height 0.65)"
same "a faulty survey" "refused 5 4" "$(asked diameter_too_small litres 50)"
same "a table that falls" "refused 9 1" "$(asked falling_row height 1)"
# Document 003 gives the volumes of its tank of 50 cubic metres in cubic metres with three decimals, from a simplified formula. At half
# height and full that formula is exact, and our rows are its figures (25.078 and 50.155) to within their last digit, one litre. At
# 0.325 m and 2.275 m it is about 134 litres off (3.619 and 46.537), the other way on either side of the middle.
# Our row at a height less the document's figure, in whole litres.
off() {
    local ours
    ours=$(grep "^$1 " examples/fifty_cubic_metres.txt | cut -d' ' -f2 | tr -d .)
    echo $(((ours - $2 * 100) / 100))
}
same "document 003, half full" "0" "$(off 1300.00 25078)"
same "document 003, full" "0" "$(off 2600.00 50155)"
same "document 003, at 0.325 m" "-134" "$(off 325.00 3619)"
same "document 003, at 2.275 m" "133" "$(off 2275.00 46537)"

[ "$failures" -eq 0 ]
