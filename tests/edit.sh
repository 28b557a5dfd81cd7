# shellcheck shell=bash
# Sourced by what tries edits, each on a copy of its crate.

# Makes the copy of a crate anew and applies an edit to it, each `old:` text of which stands in its file once. Fails if one does not, or if
# there is none.
edited() { # CRATE COPY EDIT
    local line file='' old='' text rest pairs=0
    rm -rf "$2"
    cp -r "$1" "$2" || return
    while IFS= read -r line || [ -n "$line" ]; do
        case $line in
        'file: '*) file=$2/${line#file: } ;;
        'old: '*) old=${line#old: } ;;
        'new:'*)
            [ -f "$file" ] && [ -n "$old" ] || return 1
            text=$(<"$file")
            rest=${text#*"$old"}
            [ "$rest" != "$text" ] && [ "${rest#*"$old"}" = "$rest" ] || return 1
            line=${line#new:}
            printf '%s\n' "${text%%"$old"*}${line# }$rest" >"$file"
            old=''
            pairs=$((pairs + 1))
            ;;
        esac
    done <"$3"
    [ "$pairs" -gt 0 ]
}
