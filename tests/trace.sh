#!/usr/bin/env bash
# docs/TRACE.md is whole: every public function has its row, every edit that must be refused is named, and every file of crates/ that it
# names is there.
# Says what it looked at; a page that leaves each of these out is seen to be found.
. "$(dirname "$0")/failures.sh"

# CRATE NAME of each function that another crate can call, those of a trait and of its impls too: in lib.rt, or in a file that lib.rt declares with
# 'pub mod'
public_functions() {
    local crate file module name
    for file in crates/*/src/*.rt; do
        crate=$(basename "$(dirname "$(dirname "$file")")")
        module=$(basename "$file" .rt)
        [ "$module" = lib ] || grep -q "^pub mod $module;" "crates/$crate/src/lib.rt" 2>/dev/null || continue
        for name in $(sed -nE 's/^ *pub (extern "C" )?fn ([a-z_0-9]+).*/\2/p; /^pub trait |^impl.* for /,/^\}/ s/^ *fn ([a-z_0-9]+).*/\1/p' "$file"); do
            echo "$crate $name"
        done
    done
}

edits() { for file in crates/*/must-fail/*.edit crates/*/must-not-compile/*.edit; do echo "$(basename "$(dirname "$(dirname "$file")")") $(basename "$file" .edit)"; done; }

# what a page lacks: functions without a row of their crate, edits that no line names
functions_missing() { public_functions | while read -r crate name; do grep -qE "^\| \`$crate\` .*\`([A-Za-z]+::)?$name\`" "$1" || echo "$crate::$name"; done; }
edits_missing() { edits | while read -r crate name; do grep -qE "\`($crate/)?$name\`" "$1" || echo "$crate/$name"; done; }
# files that a page names and that are not there
files_missing() { grep -oE '`[a-z_]+/(specs|src|proofs)/[A-Za-z_0-9]+\.(antt|rt)`' "$1" | tr -d '`' | sort -u | while read -r file; do [ -f "crates/$file" ] || echo "$file"; done; }

page=docs/TRACE.md
found=$(functions_missing "$page")
[ -z "$found" ] || fail "public functions without a row: $found"
found=$(edits_missing "$page")
[ -z "$found" ] || fail "edits that are not named: $found"
found=$(files_missing "$page")
[ -z "$found" ] || fail "files that are not there: $found"

# the rules can be broken
sample=$(mktemp)
grep -v 'put_line' "$page" >"$sample"
functions_missing "$sample" | grep -qx 'said::put_line' || fail "a function of a trait without a row is not found"
grep -v 'nearest_of_product' "$page" >"$sample"
functions_missing "$sample" | grep -qx 'arith::nearest_of_product' || fail "a function without a row is not found"
sed 's/halves_down/halves/g' "$page" >"$sample"
edits_missing "$sample" | grep -qx 'arith/halves_down' || fail "an edit that is not named is not found"
echo '`laws/specs/Nowhere.antt`' >"$sample"
[ "$(files_missing "$sample")" = laws/specs/Nowhere.antt ] || fail "a file that is not there is not found"
rm "$sample"

echo "$(public_functions | wc -l) public functions and $(edits | wc -l) edits looked for"
[ "$failures" -eq 0 ]
