#!/usr/bin/env bash
# Runs the program, which is built first where it is not there or older than its sources.
# Usage: ./nas run CONFIG SCRIPT
top=$(cd "$(dirname "$0")" && pwd)
program=$top/crates/nas_cli/out/nas_cli
newer() { find "$top/crates" -name out -prune -o \( -name '*.rt' -o -name '*.antt' \) -newer "$program" -print -quit; }

# The program's crate and those of this repository below it, lowest first, as crates.txt lists them.
crates() {
    awk -v program=nas_cli '
        /^[[:space:]]*(#|$)/ { next }
        { sub(/:/, ""); crate[++count] = $1; line[count] = $0 }
        END {
            wanted[program] = 1
            for (i = count; i > 0; i--)
                if (wanted[crate[i]]) { n = split(line[i], low); for (j = 2; j <= n; j++) wanted[low[j]] = 1 }
            for (i = 1; i <= count; i++) if (wanted[crate[i]]) print crate[i]
        }' "$top/crates.txt"
}

# Proves one crate, whose lower crates are proved, and builds it.
prove() {
    local work=lib
    [ "$1" = nas_cli ] && work="run -- vectors"
    mkdir -p "$top/crates/$1/out"
    (cd "$top/crates/$1" && rt $work) >"$top/crates/$1/out/build.log" 2>&1
}

# Proves every crate and builds the program, and tells of each crate as it ends.
build() {
    local all crate started ended=0
    mapfile -t all < <(crates)
    echo "nas: building, which proves ${#all[@]} crates first; only the first time takes minutes" >&2
    for crate in "${all[@]}"; do
        started=$SECONDS
        prove "$crate" || { cat "$top/crates/$crate/out/build.log" >&2; echo "nas: $crate is not proved" >&2; exit 1; }
        ended=$((ended + 1))
        echo "nas: $ended of ${#all[@]}: $crate, $((SECONDS - started)) s" >&2
    done
    touch "$program"
}

if [ ! -x "$program" ] || [ -n "$(newer)" ]; then build; fi
exec "$program" "$@"
