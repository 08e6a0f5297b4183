# Building the program, for the script `pisa`, which reads this by `.` and has set `root`, `crate` and
# `program`. While a build goes on, it tells on standard error how far it is. POSIX sh.

# The lines of crates.txt of `pisa` and of all crates below it, each behind those that it stands on, which is
# the order in which `rt run` proves them.
lines_needed() {
    awk '
        function visit(name, below, parts, part) {
            if (!(name in line) || name in visited) return
            visited[name]
            parts = split(line[name], below, " ")
            for (part = 2; part <= parts; part++) visit(below[part])
            print line[name]
        }
        /^[a-z]/ {
            name = $1
            sub(/:$/, "", name)
            line[name] = $0
        }
        END { visit("pisa") }' "$root/crates.txt"
}

# Builds the program; what the prover says is printed where it fails.
build() {
    work=$(mktemp -d) || return
    watcher=
    trap 'stop_watching; rm -rf "$work"' EXIT
    trap 'exit 1' HUP INT TERM
    copy=$work/copy
    mkdir "$copy"
    lines_needed >"$copy/crates.txt"
    names=$(sed 's/:.*//' "$copy/crates.txt")
    count=$(echo "$names" | wc -l)
    begin=$(date +%s)
    # a program of older sources must not stand in for one that was not built
    rm -f "$program"
    [ -d "$root/crates/ss_base/out" ] || prove_side_by_side
    build_program
    built=$?
    stop_watching
    rm -rf "$work"
    trap - EXIT HUP INT TERM
    return "$built"
}

# A first build. `rt all` proves crates side by side, but all of a repository: so it is given a copy that
# has the needed ones alone, and what it makes is brought back. What doesn't prove is told by the build
# that follows.
prove_side_by_side() {
    mkdir "$copy/crates"
    for name in $names; do
        cp -Rp "$root/crates/$name" "$copy/crates/"
    done
    without_libraries='the sources are read'
    say "a first build proves $count crates; on four processors that takes about ten minutes ($(nproc) here)"
    watch "$copy"
    (cd "$copy" && rt all check --jobs "$(nproc)") >"$work/said" 2>&1 </dev/null
    stop_watching
    for name in $names; do
        [ -d "$copy/crates/$name/out" ] && mv "$copy/crates/$name/out" "$root/crates/$name/"
    done
}

# Proves what isn't proved yet, and makes the program. It is run once: with no words it writes no file, and
# its status says nothing of the build.
build_program() {
    without_libraries='the program is made'
    watch "$root"
    (cd "$crate" && rt run --) >"$work/said" 2>&1 </dev/null
    stop_watching
    if ! [ -x "$program" ]; then
        cat "$work/said" >&2
        echo 'pisa: the program was not built' >&2
        return 1
    fi
    touch "$program"
}

# Says a line on standard error, unless nothing is to be said.
say() {
    is_quiet || printf 'pisa: %s\n' "$1" >&2
}

# Begins to tell how far the build below the folder $1 is, whose lines go to the file `said`.
watch() {
    : >"$work/said"
    is_quiet && return
    tell_progress "$1" &
    watcher=$!
}

# Ends that, and takes its line off a terminal.
stop_watching() {
    [ -n "$watcher" ] || return 0
    kill "$watcher" 2>/dev/null
    wait "$watcher" 2>/dev/null
    watcher=
    ! [ -t 2 ] || printf '\r\033[K' >&2
}

# Tells which crates are being proved, for how long, and how many are done: each second on one line that is
# rewritten on a terminal, and elsewhere on a further line where something changed.
tell_progress() {
    started=
    told=
    while kill -0 $$ 2>/dev/null; do
        now=$(date +%s)
        ended=" $(sed -n '/^== summary$/d; s/^== \([a-z0-9_]*\)$/\1/p' "$work/said" | tr '\n' ' ')"
        proving=$(being_proved "$1")
        note_started
        if [ -t 2 ]; then
            printf '\r%.79s\033[K' "$(progress "$1")" >&2
        elif [ "$ended,$proving" != "$told" ]; then
            printf '%s\n' "$(progress "$1")" >&2
        fi
        told=$ended,$proving
        sleep 1 >/dev/null 2>&1
    done
}

# The crates that are being proved below the folder $1: what comes of a library has a folder from its start
# on, in which a stamp stands once it is proved. The program comes last, where no library is left.
being_proved() {
    for name in $names; do
        library=$1/crates/$name/out/rlib
        case $ended in
            *" $name "*) ;;
            *) ! [ -d "$library" ] || [ -e "$library/stamp" ] || echo "$name" ;;
        esac
    done
}

# Keeps in `started`, as NAME:SECOND, since when each of them is being proved.
note_started() {
    was_started="$started "
    started=
    for name in $proving; do
        second=$now
        case $was_started in
            *" $name:"*)
                second=${was_started#*" $name:"}
                second=${second%% *} ;;
        esac
        started="$started $name:$second"
    done
}

# How many crates are done: side by side those that `rt all` told of, and else those before the one that is
# being proved.
count_done() {
    if [ "$1" = "$copy" ]; then
        echo "$ended" | wc -w
    else
        echo "$names" | sed "/^$(echo ${proving:-pisa} | cut -d ' ' -f 1)\$/,\$d" | wc -l
    fi
}

# The line that tells how far the build below the folder $1 is.
progress() {
    now_proving=
    for item in $started; do
        now_proving="$now_proving, ${item%:*} for $((now - ${item#*:})) s"
    done
    now_proving=${now_proving#, }
    printf 'pisa: %d of %d crates done in %d s, now %s\n' "$(count_done "$1")" "$count" $((now - begin)) \
        "${now_proving:-$without_libraries}"
}
