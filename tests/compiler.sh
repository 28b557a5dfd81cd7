#!/usr/bin/env bash
# Tries the edits that the compiler must refuse, crates/NAME/must-not-compile/*.edit, each on a copy of the sources. They are written as the
# must-fail edits are, with one line more, `error:`, the compiler's first complaint. `rt must-fail` takes only edits that the compiler lets
# through to the prover. Says what it tried; an edit that compiles, and one that is refused for another reason, are seen to be found.
. "$(dirname "$0")/failures.sh"
. tests/edit.sh
# outside the repository, in which rt ci allows no sources but those of its crates
room=$(mktemp -d)
trap 'rm -rf "$room"' EXIT

# What the compiler says of a crate with an edit: 'refused' if it is the edit's own error.
verdict() {
    local expected first
    expected=$(sed -n 's/^error: //p' "$2")
    edited "$room/plain/crates/$1" "$room/crates/$1" "$2" || { echo "its 'old:' text does not stand in the file once"; return; }
    # no function has this name: the sources are read, and nothing is proved
    if (cd "$room/crates/$1" && rt check --only "") >"$room/said" 2>&1; then
        echo "it compiles"
        return
    fi
    first=$(grep -om1 'error.*' "$room/said")
    if [ -n "$expected" ] && [ "$first" = "$expected" ]; then echo refused; else echo "refused otherwise: $first"; fi
}

edits=(crates/*/must-not-compile/*.edit)
crate_of() { cut -d/ -f2 <<<"$1"; }
mapfile -t crates < <(for edit in "${edits[@]}"; do crate_of "$edit"; done | sort -u)

# without what rt keeps in out/
mkdir "$room/plain"
tar -cf - --exclude=out crates | tar -xf - -C "$room/plain"
cp -r "$room/plain/crates" crates.txt "$room"

for edit in "${edits[@]}"; do
    found=$(verdict "$(crate_of "$edit")" "$edit")
    if [ "$found" = refused ]; then echo "ok: $edit"; else fail "$edit: $found"; fi
done

# the check can fail
of=$(crate_of "${edits[0]}")
sample=$room/sample.edit
sed '/^new: /d; s/^old: \(.*\)/&\nnew: \1/' "${edits[0]}" >"$sample"
[ "$(verdict "$of" "$sample")" = "it compiles" ] || fail "an edit that compiles is not found"
sed 's/^error: .*/error: another/' "${edits[0]}" >"$sample"
[[ $(verdict "$of" "$sample") = "refused otherwise: "* ]] || fail "an edit that is refused for another reason is not found"
sed 's/^old: /&no such text /' "${edits[0]}" >"$sample"
[[ $(verdict "$of" "$sample") = "its 'old:' text "* ]] || fail "an edit that fits nowhere is not found"

echo "${#edits[@]} edits of ${#crates[@]} crates tried"
[ "$failures" -eq 0 ]
