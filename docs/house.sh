#!/usr/bin/env bash
# Prints docs/HOUSE.md from crates.txt: what each crate is, and which uses which. `make house` writes it.
set -eu
cd "$(dirname "$0")/.."
awk '
function fail(why) { print "crates.txt: " why > "/dev/stderr"; bad = 1 }

# the groups, from the roof to the ground
function floor(name, heading) { groups[++last] = name; headings[name] = heading }
BEGIN {
    floor("programs", "Programs")
    floor("promises", "Promises: theorems, no code")
    floor("C", "The C interface")
    floor("texts", "Texts")
    floor("machine", "The machine")
    floor("instructions", "Instructions")
    floor("ground", "The ground")
}

# NAME: DEP DEP   # GROUP: what it is
/^[^#]*:/ {
    name = uses = said = $0
    sub(/:.*/, "", name); sub(/ .*/, "", name)
    sub(/^[^:]*:/, "", uses); sub(/#.*/, "", uses)
    sub(/^[^#]*#? */, "", said)
    colon = index(said, ": ")
    crates[++count] = name
    deps[name] = uses
    group_of[name] = substr(said, 1, colon - 1)
    what[name] = substr(said, colon + 2)
    if (!colon || what[name] == "") fail(name " is not followed by `# GROUP: what it is`")
    else if (!(group_of[name] in headings)) fail(name " is in no known group: " group_of[name])
}

# whether a crate uses another, by itself or through those that it uses
function reaches(a, b,    used, n, i) {
    if ((a, b) in known) return known[a, b]
    known[a, b] = 0
    n = split(deps[a], used, " ")
    for (i = 1; i <= n; i++) if (used[i] == b || reaches(used[i], b)) known[a, b] = 1
    return known[a, b]
}

# the crates that a crate uses, without those that another of them uses: an arrow to each
function arrows(a,    used, n, i, j, implied, to) {
    n = split(deps[a], used, " ")
    for (i = 1; i <= n; i++) {
        implied = !(used[i] in what)
        for (j = 1; j <= n; j++) if (reaches(used[j], used[i])) implied = 1
        if (!implied) to = to (to == "" ? "" : " & ") used[i]
    }
    return to
}

function table(group,    i) {
    print "\n## " headings[group] "\n\n| Crate | What it is |\n|---|---|"
    for (i = 1; i <= count; i++) if (group_of[crates[i]] == group)
        print "| [" crates[i] "](../crates/" crates[i] ") | " what[crates[i]] " |"
}

function picture(    g, i) {
    print "\n## Which uses which\n"
    print "An arrow goes from a crate to one that it uses; arrows that others imply, and the libraries of the kit, are left out."
    print "\n```mermaid\nflowchart LR"
    for (g = 1; g <= last; g++) {
        print "  subgraph group" g "[\"" headings[groups[g]] "\"]"
        for (i = 1; i <= count; i++) if (group_of[crates[i]] == groups[g]) print "    " crates[i]
        print "  end"
    }
    for (i = 1; i <= count; i++) if (arrows(crates[i]) != "") print "  " crates[i] " --> " arrows(crates[i])
    print "```"
}

END {
    if (!count) fail("lists no crate")
    if (bad) exit 1
    print "# The crates\n\nMade from [crates.txt](../crates.txt) by `make house`; the gate compares the two."
    for (g = 1; g <= last; g++) table(groups[g])
    picture()
}' crates.txt
