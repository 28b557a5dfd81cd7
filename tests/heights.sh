#!/usr/bin/env bash
# From a shell height there is no way back to a dip height. The compiler takes neither for the other, and a crate that does not list `correction`
# can't name a shell height (tests/compiler.sh tries both). What the compiler can't hold is looked for here, in the sources:
#   rule 1: a crate that can name a shell height can't make a dip height of a number; it calls no `DipHeight::..` and lists no crate that does;
#   rule 2: a shell height's number is asked for in `circle` and `heads` alone, and in no file that names a dip height;
#   rule 3: what takes a shell height gives a walk (up a circle or up a dome) or a volume, no other type holds one, and a walk's level is read only
#           where the walk goes on from it;
#   rule 4: neither type goes by another name or is passed on.
# Says what it looked at; a sample that breaks each rule is seen to be found.
. "$(dirname "$0")/failures.sh"

# The functions below look at the folder that they stand in: crates.txt, and the sources without their comments.
listed() { sed -nE "s/^$1( [^:]*)?: *//p" crates.txt; }
crates() { sed -nE 's/^([a-z0-9_]+)( [^:]*)?:.*/\1/p' crates.txt; }

# crates with code that can name a shell height
near() {
    local crate
    for crate in $(crates); do
        [[ " $crate $(listed "$crate") " = *" correction "* ]] && grep -rqE '^ *(pub )?fn ' "crates/$crate/src" && echo "$crate"
    done
}

# What makes a dip height of a number in the text of a crate, its lines joined: a call of the type; a conversion that names no type, goes by a type
# parameter, by the trait under whatever name, or by an error's `?` and what stands behind that; the type handed to another as a parameter, or under another name. Conversions to the
# types that are named here are no such thing.
conversion='\bDipHeight[ >]*::|into\b|\b(Try)?(Into|From)\b|<\s*_\s*>\s*::|>\s*::\s*(try_)?from\b'
conversion+='|\b(?!(Volume|HeadKind|[iu](8|16|32|64|128|size))\s*::)\w+\s*::\s*(try_)?from\b'
conversion+='|FromResidual\b|from_residual\b|[\w)\]}]\s*\?|[<,]\s*([a-z_]+::)*DipHeight\s*[,>]|\btype\b[^;]*\bDipHeight\b'
# the lines that open the conversions which there are, of `measure` and `heads`
opened='^impl (From<u32> for (DipHeight|Volume)|TryFrom<u32> for HeadKind) \{$'

# crates that can make a dip height of a number, or list one that can
makers() {
    local crate found=' ' before=none
    for crate in $(crates); do
        find crates/"$crate"/src -name '*.rt' -exec cat {} + | grep -vE "$opened" | tr '\n' ' ' | grep -qP "$conversion" && found="$found$crate "
    done
    while [ "$found" != "$before" ]; do
        before=$found
        for crate in $(crates); do
            [[ $found = *" $crate "* ]] && continue
            grep -qwE "$(tr -s ' ' '|' <<<"${found# }" | sed 's/|$//')" <<<"$(listed "$crate")" && found="$found$crate "
        done
    done
    tr -s ' ' '\n' <<<"$found"
}

# what takes a shell height and gives neither a walk nor a volume, but for the function that gives the number; and what holds one
others() {
    find crates -name '*.rt' -exec awk '
        function judge() {
            inside = 0
            split(text, side, "->")
            takes = side[1] ~ /[^A-Za-z0-9_]ShellHeight/ || type == "ShellHeight" && side[1] ~ /[(, ]self[,)]/
            if (takes && side[2] !~ /^ *(Walk|DomeWalk|Volume) *\{?$/ && text !~ /fn shell_units\(self\)/) print FILENAME ": a shell height taken:" text
        }
        /^impl / { type = $2 }
        /^}/ { type = "" }
        /^ *(pub(\([a-z]+\))? )?fn / { text = ""; inside = 1 }
        inside && /^ *(requires|ensures|\{)/ { judge() }
        inside { text = text $0; if (/\{$/) judge(); next }
        !/^ *let / && /([^:]:|\() *[&[]*ShellHeight *[],;)]/ { print FILENAME ": a shell height held:" $0 }' {} +
}

findings() {
    comm -12 <(near | sort) <(makers | sort) | sed 's/^/rule 1: shell heights named and dip heights made in /'
    grep -rlE '(\.|::)shell_units\b' crates | grep -vE '^crates/(circle|heads)/' | sed "s/^/rule 2: a shell height's number asked for in /"
    grep -rlE '(\.|::)shell_units\b' crates | xargs -r grep -lwE 'DipHeight|dip_height' | sed "s/^/rule 2: it is asked for and a dip height named in /"
    others | sed 's/^/rule 3: /'
    grep -rnE '[A-Za-z0-9_)]\.level\b' crates | grep -vE ':[0-9]+: *(requires|ensures) ' | grep -vE '^crates/circle/src/walk\.rt:[0-9]+: *(let y = self\.walk\.level;|\} else if middle <= self\.walk\.level \{|ghost stands: \{ walk ≡ walk_at d walk\.level \},)$' | sed "s/^/rule 3: a walk's level read in /"
    grep -rnE '\b(DipHeight|ShellHeight|dip_height|shell_height) +as\b|\b(type|pub use)\b.*\b(DipHeight|ShellHeight|dip_height|shell_height)\b' crates | sed 's/^/rule 4: /'
}

room=$(mktemp -d)
mkdir "$room/tree" "$room/sample"
cp --parents -r crates.txt crates/*/src "$room/tree"
find "$room/tree" -name '*.rt' -exec sed -i 's,//.*,,' {} +
cd "$room/tree" || exit 2
found=$(findings)
[ -z "$found" ] || fail "$found"
files=$(find crates -name '*.rt' | wc -l)
looked="$(crates | wc -l) crates and $files files looked at
shell heights can be named in: $(near | paste -sd' ')
dip heights can be made of numbers in: $(makers | paste -sd' ' | sed 's/^ //')"

# A rule, and a command that breaks it in a copy.
broken() {
    local rule=$1
    shift
    rm -rf "$room/sample"
    cp -r "$room/tree" "$room/sample"
    cd "$room/sample" || exit 2
    "$@"
    [[ $(findings) = *"$rule"* ]] || fail "not found as a breach of $rule: $*"
}
# Adds a line to a file, which may be new.
add() {
    mkdir -p "$(dirname "$1")"
    echo "$2" >>"$1"
}
# Adds a crate that makes dip heights, by its line's beginning, to those that `tank` lists.
listed_by_tank() {
    add "crates/${1%% *}/src/lib.rt" 'pub fn height(n: u32) -> DipHeight { DipHeight::from(n) }'
    sed -i "s/^tank: /$1: measure\n&${1%% *} /" crates.txt
}

broken "rule 1" add crates/tank/src/filling.rt 'fn back(n: u32) -> DipHeight { DipHeight::from(n) }'
broken "rule 1" add crates/tank/src/filling.rt 'fn back(n: u32) -> DipHeight { n.into() }'
broken "rule 1" add crates/tank/src/filling.rt 'fn back(n: u32) -> DipHeight { From::from(n) }'
broken "rule 1" add crates/tank/src/filling.rt 'fn back(n: u32) -> DipHeight { <_>::from(n) }'
broken "rule 1" add crates/tank/src/filling.rt 'fn back(n: u32) -> DipHeight { n.try_into().unwrap() }'
broken "rule 1" add crates/tank/src/filling.rt 'fn back(n: u32) -> DipHeight { TryFrom::try_from(n).unwrap() }'
broken "rule 1" add crates/tank/src/filling.rt 'fn back<T: TryFrom<u32>>(n: u32) -> Option<T> { T::try_from(n).ok() }'
broken "rule 1" add crates/tank/src/filling.rt 'fn back<T: From<u32>>(n: u32) -> T { T::from(n) }'
broken "rule 1" add crates/tank/src/filling.rt 'fn back(n: u32) -> Result<u32, DipHeight> { Err(n)? }'
broken "rule 1" add crates/tank/src/filling.rt 'fn back<X, T: From<X>>(n: X) -> T { T::from(n) }'
broken "rule 1" add crates/tank/src/filling.rt 'fn back<T: Made>(n: u32) -> T { T::from(n) }'
broken "rule 1" add crates/tank/src/filling.rt 'use std::convert::From as Made; fn back(n: u32) -> DipHeight { Made::from(n) }'
broken "rule 1" add crates/tank/src/filling.rt 'impl Made for DipHeight { fn made(n: u32) -> DipHeight { Self::from(n) } }'
broken "rule 1" add crates/tank/src/filling.rt $'fn back(n: u32) -> Result<\n    u32,\n    DipHeight,\n> {\n    Err(n)?\n}'
broken "rule 1" add crates/tank/src/filling.rt 'fn back(n: u32) -> Told<u32, DipHeight> { told(n) }'
broken "rule 1" add crates/tank/src/filling.rt $'fn back(n: u32) -> DipHeight { DipHeight\n    ::from(n) }'
broken "rule 1" add crates/tank/src/filling.rt 'fn back(n: u32) -> DipHeight { let f = |m: u32| { let x: u32 = match m { k => Err(k) }?; Ok(x) }; f(n).unwrap_err() }'
broken "rule 1" add crates/tank/src/filling.rt 'fn back(n: u32) -> Result<u32, (DipHeight)> { if n == 0 { Ok(n) } else { Err(n) }? }'
broken "rule 1" add crates/tank/src/filling.rt 'fn back(n: u32) -> DipHeight { Result::<u32, _>::from_residual(Err(n)).unwrap_err() }'
broken "rule 1" add crates/tank/src/filling/back.rt 'pub fn back(n: u32) -> DipHeight { DipHeight::from(n) }'
broken "rule 1" listed_by_tank made2
broken "rule 1" listed_by_tank 'made may_wait=2'
broken "rule 1" add crates/measure/src/volume.rt 'pub fn height_of(n: u32) -> DipHeight { DipHeight::from(n) }'
broken "rule 1" add crates/arith/src/nearest.rt 'pub fn made<A, B: From<A>>(a: A) -> B { B::from(a) }'
broken "rule 1" sed -i 's/^tank: /&schedule /' crates.txt
broken "rule 1" sed -i 's/^lookup: /&correction /' crates.txt
broken "rule 2" add crates/tank/src/filling.rt 'fn number(h: ShellHeight) -> u64 { h.shell_units() }'
broken "rule 2" add crates/heads/src/volume.rt 'use measure::dip_height::DipHeight;'
broken "rule 3" add crates/heads/src/volume.rt 'pub fn level(h: ShellHeight) -> u64 {'
broken "rule 3" sed -i 's/^impl ShellHeight {/&\n    pub fn number(self) -> u32 {/' crates/correction/src/shell_height.rt
broken "rule 3" add crates/tank/src/tank.rt '    pub height: ShellHeight,'
broken "rule 3" sed -i 's/^impl Walk {/&\n    pub fn level(self) -> u64 {\n        self.level\n    }/' crates/circle/src/walk.rt
broken "rule 4" add crates/tank/src/tank.rt 'pub use correction::shell_height::ShellHeight;'
broken "rule 4" add crates/tank/src/tank.rt 'use measure::dip_height::DipHeight as Height;'
cd / && rm -r "$room"

echo "$looked"
[ "$failures" -eq 0 ]
