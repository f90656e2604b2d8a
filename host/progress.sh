#!/usr/bin/env bash
# rt .. 2>&1 | progress.sh [NAME..]: copies what rt prints as it goes, and tells on standard error how far it is. rt
# proves the crates named and those that they use; with no name all of them, and it tries the wrong answers.
set -u
cd "$(dirname "$0")/.." || exit 1

# crates NAME..: the names of the crates that rt is going to prove, from crates.txt
crates() {
    WANTED="$*" awk -F ':' '
        function visit(name,    used, n, i) {
            if (!(name in uses) || name in seen) return
            seen[name] = 1
            n = split(uses[name], used, " ")
            for (i = 1; i <= n; i++) visit(used[i])
            print name
        }
        { sub(/#.*/, "") }
        NF > 1 { sub(/ .*/, "", $1); uses[$1] = $2; all = all " " $1 }
        END {
            n = split(ENVIRON["WANTED"] == "" ? all : ENVIRON["WANTED"], wanted, " ")
            for (i = 1; i <= n; i++) visit(wanted[i])
        }' crates.txt
}

total=$(crates "$@" | wc -l)
edits=$(printf '%s\n' crates/*/must-fail/*.edit | wc -l)
begun=0 ended=0 kept=0 tried=0

tell() { printf '%s\n' "$*" >&2; }

# begin NAME: `rt lib` begins with a crate; of those that it need not prove again it says nothing
begin() {
    begun=$((begun + 1))
    tell "proving $1, $begun of at most $total"
}

# end NAME RESULT: `rt ci` is done with a crate
end() {
    ended=$((ended + 1))
    tell "$1 $2, $ended of $total"
}

# try NAME COUNT: `rt ci` begins with the wrong answers of a crate, and tells what came of them after the last one
try() {
    tell "trying wrong answers of $1, $((tried + 1)) to $((tried + $2)) of $edits"
    tried=$((tried + $2))
}

line_of_rt() {
    if [[ $1 =~ ^rt:\ chose\ --jobs\ [0-9]+\ for\ ([a-z_0-9]+)$ ]]; then
        begin "${BASH_REMATCH[1]}"
    elif [[ $1 =~ ^rt:\ ([a-z_0-9]+)\ (proved|NOT\ PROVED.*)$ ]]; then
        end "${BASH_REMATCH[@]:1:2}"
    elif [[ $1 =~ ^rt:\ [a-z_0-9]+\ is\ kept: ]]; then
        ended=$((ended + 1)) kept=$((kept + 1))
    elif [[ $1 =~ ^rt:\ ([a-z_0-9]+):\ trying\ its\ must-fail\ edits\ \(([0-9]+)\)$ ]]; then
        try "${BASH_REMATCH[@]:1:2}"
    fi
}

while IFS= read -r line; do
    printf '%s\n' "$line"
    line_of_rt "$line"
done
# what stands after the last newline
printf '%s' "$line"
[ "$kept" -eq 0 ] || tell "$kept of $total crates had been proved before"
