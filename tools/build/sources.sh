# shellcheck shell=sh disable=SC2154 # crate is set by who reads this
# What a program stands on in a folder of the repository, its copy, and a sum over it: read by bin/scramble, which keeps the
# sum beside what it built, and by bin/package, which compares it with that of a commit. Which program is meant says the
# variable crate, by the name of its crate: scramble, scramble_wcif or scramble_pages.
#
# The sources are the files *.rt and *.antt of the crates that the program transitively needs, below src, specs and proofs; what
# its stored run is made of; HANDLES; and of crates.txt the lines of these crates. Nothing else counts: neither tests, edits
# and documents nor hidden files, an editor's copies, links and the times of files.

# The lines of the crates that the program needs, in a folder: its own, and those of all that it stands on.
crate_lines() {
    LC_ALL=C awk -v program="$crate" '
        { sub(/#.*/, ""); gsub(/[ \t\r]+/, " "); sub(/^ /, ""); sub(/ $/, ""); at = index($0, ":") }
        at { split(substr($0, 1, at - 1), head, " "); line[head[1]] = $0; below[head[1]] = substr($0, at + 1) }
        END {
            todo[last = 1] = program
            for (i = 1; i <= last; i++) {
                if (!(todo[i] in line)) continue
                print line[todo[i]]
                n = split(below[todo[i]], name, " ")
                for (k = 1; k <= n; k++) if (!seen[name[k]]++) todo[++last] = name[k]
            }
        }' "$1/crates.txt" | LC_ALL=C sort
}

crate_names() { crate_lines "$1" | sed 's/[ :].*//'; }

# The sources of a folder, each ended by a byte 0, in one order.
source_files() (
    cd -- "$1" || exit 1
    set --
    for name in $(crate_names .); do
        for part in src specs proofs; do
            [ ! -d "crates/$name/$part" ] || set -- "$@" "crates/$name/$part"
        done
    done
    [ $# -gt 0 ] || exit 1
    for file in HANDLES "crates/$crate/args" "crates/$crate/stdin" "crates/$crate/stdout" "crates/$crate/status"; do
        [ ! -f "$file" ] || [ -L "$file" ] || set -- "$@" "$file"
    done
    find "$@" -name '.*' -prune -o -type f \( -name '*.rt' -o -name '*.antt' -o ! -path '*/*/*/*' \) -print0 | LC_ALL=C sort -z
)

# A sum over the sources of a folder, their names and the lines of their crates.
sources_sum() (
    cd -- "$1" || exit 1
    { crate_lines . && source_files . | xargs -0 sha256sum; } | sha256sum | cut -c 1-64
)

# Lays a copy of the sources of a folder into another one, which is new.
copy_sources() (
    mkdir -p "$2/crates" && cp "$1/HANDLES" "$2" && crate_lines "$1" > "$2/crates.txt" || exit 1
    for name in $(crate_names "$1"); do
        mkdir "$2/crates/$name" || exit 1
        for part in src specs proofs; do
            [ ! -d "$1/crates/$name/$part" ] || cp -R "$1/crates/$name/$part" "$2/crates/$name" || exit 1
        done
    done
    find "$2"/crates/*/* \( -name '.*' -o ! -type d ! \( -type f \( -name '*.rt' -o -name '*.antt' \) \) \) \
        -prune -exec rm -rf {} + || exit 1
    for file in args stdin stdout status; do
        file=$1/crates/$crate/$file
        [ ! -f "$file" ] || [ -L "$file" ] || cp "$file" "$2/crates/$crate" || exit 1
    done
)
