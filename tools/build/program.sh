# shellcheck shell=sh disable=SC2154 # what is set by who reads this
# Builds a program of the repository where that has to be, and runs it: read by the files of bin/ that bear the programs' names,
# which set
#     top      the repository's folder
#     called   the program's name
#     crate    its crate
#     takes    what its first build takes, in words
# It is built where it isn't built, or where it was built from other sources than those that stand here, or by another kit: a
# sum over what it was built from is kept beside it. SCRAMBLE_JOBS says how many parts the build may prove side by side.
set -u
unset CDPATH
built=$top/crates/$crate/out/$crate
record=$top/crates/$crate/out/built-from
# shellcheck source=tools/build/sources.sh
. "$top/tools/build/sources.sh" || exit 1

say() { printf '%s: %s\n' "$called" "$*" >&2; }

sum_of() { sha256sum < "$1" | cut -c 1-64; }

# The kit's line, from its file beside the command rt, since to ask rt itself takes as long as all else here.
kit_line() {
    kit_file=$(readlink -f -- "$(command -v rt)") && kit_file=${kit_file%/*/*}/KIT-ID
    if [ -f "$kit_file" ]; then head -n 1 "$kit_file"; else rt version 2> /dev/null | head -n 1; fi
}

# The program is there, is the one that was built, and was built from these sources, by this kit where there is one. If it
# isn't, tells of the program that is there why.
is_current() {
    why=
    [ -e "$built" ] || return 1
    why="isn't known to be built from the sources that stand here"
    [ -f "$built" ] && [ -x "$built" ] && [ -f "$record" ] || return 1
    { read -r _ program && read -r _ sources && read -r _ kit; } < "$record" || return 1
    [ "$program" = "$(sum_of "$built")" ] || return 1
    why="was built from other sources than those that stand here"
    [ "$sources" = "$(sources_sum "$top")" ] || return 1
    why="was built by another kit"
    ! command -v rt > /dev/null || [ "$kit" = "$(kit_line)" ]
}

# The end of the build of `scramble`, where each part waits for the one before, is more than a newcomer would think.
last_ones() { [ "$crate $1" != "scramble 3" ] || echo "; the last three, one after another, take a third of the time"; }

# Proves each part in the copy, builds the program and tries its stored run, as the gate does, and tells how far it is. It has
# a session of its own, by which all its processes are known. Where the kit keeps what was proved, a later build takes it, and
# so does the gate.
prove() {
    parts=$(crate_names "$copy" | wc -l)
    log=$room/log
    : > "$log"
    session=$(command -v setsid)
    (
        cd "$copy" || exit 1
        [ -z "${SCRAMBLE_JOBS:-}" ] || export RT_JOBS="$SCRAMBLE_JOBS"
        export TMPDIR="$room/tmp"
        exec ${session:+"$session"} rt ci
    ) > "$log" 2>&1 < /dev/null &
    proving=$!
    told=0
    seconds=0
    while kill -0 "$proving" 2> /dev/null; do
        done=$(grep -cE '^rt: [a-z0-9_]+ (proved$|is kept: )' "$log")
        [ "$done" = "$told" ] || say "$done of $parts parts are proved$(last_ones "$((parts - done))")"
        told=$done
        sleep 1
        seconds=$((seconds + 1))
        [ $((seconds % 60)) -ne 0 ] || say "still at work, for $((seconds / 60)) minutes or more"
    done
    wait "$proving"
    status=$?
    proving=
    return "$status"
}

# The processes of the build that run: those whose environment names its folder, those that they started, and those of the
# sessions of these. What was found to be a session of the build stays one, so that nothing is lost where a process ends before
# those that it started.
find_processes() {
    roots="$proving $(grep -lsF "/${room##*/}/" /proc/[0-9]*/environ | cut -d / -f 3 | tr '\n' ' ')"
    found=$(
        for file in /proc/[0-9]*/stat; do
            read -r line 2> /dev/null < "$file" || continue
            # the number of the process; and behind its name its state, its parent, its group and its session
            echo "${line%% *} ${line##*) }"
        done 2> /dev/null | awk -v roots="$roots" -v sessions="$sessions" -v own="$$" '
            { state[$1] = $2; parent[$1] = $3; session[$1] = $5 }
            END {
                n = split(roots, name, " ")
                for (i = 1; i <= n; i++) is_root[name[i]] = 1
                n = split(sessions, name, " ")
                for (i = 1; i <= n; i++) is_known[name[i]] = 1
                do {
                    more = 0
                    for (p in state)
                        if (!(p in is_of) && (p in is_root || parent[p] in is_of || session[p] in is_known)) {
                            is_of[p] = more = 1
                            if (session[p] != session[own]) is_known[session[p]] = 1
                        }
                } while (more)
                for (p in is_of) if (state[p] !~ /[ZX]/) printf "%s ", p
                printf ":"
                for (s in is_known) printf " %s", s
            }'
    )
    processes=${found%%:*}
    sessions=${found#*:}
}

# Ends all that the build started: by TERM, and what is still there a moment later by KILL.
end_processes() {
    sessions=
    tries=0
    find_processes
    while [ -n "$processes" ] && [ "$tries" -lt 40 ]; do
        # shellcheck disable=SC2086 # these are numbers
        case $tries in
            0) kill -s TERM $processes ;;
            1 | 2) ;;
            *) kill -s KILL $processes ;;
        esac 2> /dev/null
        sleep 0.1
        tries=$((tries + 1))
        find_processes
    done
}

# Ends what still runs, and removes what the build has made on its way.
clean() {
    rm -f "$built.new.$$" "$record.new.$$"
    [ -z "$room" ] || { end_processes; rm -rf "$room"; }
}

# Somebody stopped the build, by this signal.
stop() {
    trap '' HUP INT QUIT PIPE TERM
    clean
    say "the build was stopped"
    trap - "$1"
    kill -s "$1" "$$"
    exit 1
}

# Puts the program and the record of it in their places, each in one step, since another call may do so too.
take_program() {
    cp "$copy/crates/$crate/out/$crate" "$built.new.$$" &&
        printf 'program %s\nsources %s\nkit %s\n' "$(sum_of "$built.new.$$")" "$(sources_sum "$copy")" "$kit" > "$record.new.$$" &&
        mv "$built.new.$$" "$built" && mv "$record.new.$$" "$record"
}

build() {
    mkdir -p "${built%/*}"
    [ -w "${built%/*}" ] || { say "the program can't be put into ${built%/*}"; exit 1; }
    processors=$(nproc 2> /dev/null || echo 1)
    say "building; every part is proved first, on $processors processors: $takes"
    # Kits differ in this, and have no option for it: one that gives a part several processors says so in its help.
    rt help 2>&1 | grep -q ' gets .* jobs on ' || say "this kit gives each part one processor, so the last ones leave others free"
    room=
    proving=
    for signal in HUP INT QUIT PIPE TERM; do
        # shellcheck disable=SC2064 # the name is meant
        trap "stop $signal" "$signal"
    done
    room=$(mktemp -d) || exit 1
    copy=$room/copy
    # Where rt is root it runs the program as nobody, who must come there.
    chmod 711 "$room"
    kit=$(kit_line)
    if mkdir -m 711 "$room/tmp" && copy_sources "$top" "$copy" && prove && take_program; then
        clean
        trap - HUP INT QUIT PIPE TERM
        return
    fi
    [ ! -f "$room/log" ] || grep -v '^rt: [a-z0-9_]* is kept: ' "$room/log" | tail -n 40 >&2
    free=$(df -Pk "$room" | awk 'NR == 2 { print int($4 / 1024) }')
    say "the build failed; $free MB of disk are free in ${room%/*}"
    clean
    exit 1
}

# Runs the program on these words, with standard input, output and status passed through.
run_program() {
    if ! is_current; then
        command -v rt > /dev/null || say "the build needs the command rt (see README.md)"
        [ -z "$why" ] || say "$built $why"
        command -v rt > /dev/null || exit 1
        build
    fi
    exec "$built" "$@"
}
