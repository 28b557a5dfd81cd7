#!/usr/bin/env bash
# The rooms are as docs/ARCHITECTURE.md draws them: its 'knows' column is that of crates.txt, and above the file's rooms (`file`, `form`, `records`, `numbers`,
# `readings`, `dimensions`, `survey`) nobody sees a byte but `rewrite`, which writes a file. Others name a format, which is a
# value, the formulas of `dimensions`, which are over numbers, and of `survey` no test. Says what it looked at; a sample that breaks each rule is seen to be found.
. "$(dirname "$0")/failures.sh"

# The rooms that a line of crates.txt, or a row of the table, names. The kit's crates are left out.
known() { tr ',' ' ' | tr -s ' ' '\n' | grep -vxE '|check|io' | sort | paste -sd' '; }
listed() { sed -nE "s/^$1( staticlib)?: *//p" crates.txt | known; }
drawn() { awk -F'|' -v room="\`$1\`" '{ split($2, names, ","); for (n in names) { gsub(/ /, "", names[n]); if (names[n] == room) print $4 } }' "$2" | known; }

# rooms whose 'knows' column differs from crates.txt, in a copy of the architecture page
differing() {
    local room
    for room in $(sed -nE 's/^([a-z_]+)( staticlib)?:.*/\1/p' crates.txt); do
        [ "$(listed "$room")" = "$(drawn "$room" "$1")" ] || echo "$room"
    done
}

# what reads bytes, cited or called in these folders
bytes_seen() {
    grep -rnP 'Rattle\.(file\.(specs|proofs)\.(?!Format\.|declared\.format\.Format\.)|form\.|records\.|numbers\.|readings\.|dimensions\.(specs|proofs)\.(?!Dimensions\.)|survey\.specs\.Tests\.)' "$@"
    grep -rnE '^use (file|form|records|numbers|readings|dimensions)::' "$@"
}

rooms=$(grep -cE '^[a-z_]+( staticlib)?:' crates.txt)
files=$(find crates -name '*.rt' -o -name '*.antt' | wc -l)
found=$(differing docs/ARCHITECTURE.md)
[ -z "$found" ] || fail "docs/ARCHITECTURE.md and crates.txt differ in: $found"
# shellcheck disable=SC2046
found=$(bytes_seen $(ls -d crates/* | grep -vxE 'crates/(file|form|records|numbers|readings|dimensions|survey|rewrite)'))
[ -z "$found" ] || fail "bytes seen above the file's rooms: $found"

# the rules can be broken
sample=$(mktemp -d)
sed 's/^| `arith` .*/| `arith` | x | laws, measure |/' docs/ARCHITECTURE.md >"$sample/page.md"
[ "$(differing "$sample/page.md")" = arith ] || fail "a wrong 'knows' column is not found"
seen() {
    echo "$1" >"$sample/above.rt"
    [ -n "$(bytes_seen "$sample")" ]
}
for line in 'use Rattle.file.specs.Word.{word}' 'use Rattle.records.specs.Item.{item_from}' 'use Rattle.dimensions.specs.Tests.{dimension_tests}' \
    'use Rattle.survey.specs.Tests.{file_tests}' 'use file::word::word;' 'use records::item::item_from;'; do
    seen "$line" || fail "not found: $line"
done
seen 'use Rattle.file.specs.Format.{today}' && fail "a format is taken for a byte"
rm -r "$sample"

echo "$rooms rooms and $files files looked at"
[ "$failures" -eq 0 ]
