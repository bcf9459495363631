#!/bin/sh
# Runs a program of this repository: launch.sh PROGRAM [WORD..]. Where it is not built yet, or a source is newer than it, it
# is proved and built first, with a line on the terminal for each crate that is proved. The whole log stands in
# out/PROGRAM.log.
top=$(cd "$(dirname "$0")" && pwd)
name=$1
shift
program=$top/crates/$name/out/$name
log=$top/out/$name.log

# the program's crate and all below it, one name a line
crates_below() {
    awk -v top="$name" '
        /^[a-z]/ { key = $1; sub(":$", "", key); deps[key] = $0 }
        function visit(crate,    words, count, i) {
            if (!(crate in deps) || crate in seen) return
            seen[crate] = 1
            print crate
            count = split(deps[crate], words, " ")
            for (i = 2; i <= count; i++) visit(words[i])
        }
        END { visit(top) }' "$top/crates.txt"
}

# shows each crate as it is proved: which of how many it is, and the time so far
show_progress() {
    all=$(crates_below)
    total=$(echo "$all" | wc -l)
    begun=$(date +%s)
    seen=" "
    count=0
    while IFS= read -r line; do
        case $line in
            "crate "*": modules "*) ;;
            *) continue ;;
        esac
        crate=${line#crate }
        crate=${crate%%:*}
        case $seen in *" $crate "*) continue ;; esac
        seen="$seen$crate "
        count=$((count + 1))
        took=$(($(date +%s) - begun))
        printf '%s: proved %s (%d of %d, %d min %02d s)\n' "$name" "$crate" "$count" "$total" $((took / 60)) $((took % 60)) >&2
    done
}

# the program is there, and no source of its crates is newer
is_built() {
    [ -x "$program" ] || return 1
    newer=$(cd "$top/crates" && find $(crates_below | sed 's|$|/src|') -name '*.rt' -newer "$program" -print -quit)
    [ -z "$newer" ]
}

if ! is_built; then
    mkdir -p "$top/out"
    rm -f "$program"
    # rt run ends with the program's own status, so its success is told by the program that it leaves
    if [ -t 2 ]; then
        echo "$name: proving and building the program, which takes some minutes the first time" >&2
        (cd "$top/crates/$name" && rt run </dev/null 2>&1) | tee "$log" | show_progress
    else
        (cd "$top/crates/$name" && rt run </dev/null) >"$log" 2>&1
    fi
    # rt may leave a program of an equal source as it was
    [ ! -x "$program" ] || touch "$program"
fi
if [ ! -x "$program" ]; then
    echo "$name: the program was not built; the log is $log" >&2
    exit 70
fi
exec "$program" "$@"
