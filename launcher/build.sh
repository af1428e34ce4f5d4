# Proves and builds the program.

# How long all of it takes from nothing, as measured (docs/PERFORMANCE.md).
whole_build='some 25 minutes on four cores, and over an hour on one'

# What one check may take of memory, in kilobytes: the largest took 3.8 million, alone, and most take a third of that.
check_memory=3000000

# How many checks are made at once: one for each processor, as far as memory goes.
jobs_at_once() {
    jobs=$(nproc 2>/dev/null) || jobs=1
    free=$(sed -n 's/^MemAvailable: *\([0-9]*\) kB$/\1/p' /proc/meminfo 2>/dev/null)
    most=$((${free:-0} / check_memory))
    [ "$jobs" -le "$most" ] || jobs=$most
    [ "$jobs" -ge 1 ] || jobs=1
    echo "$jobs"
}

# Which crates are being proved, as `in code_layout and control_flow, 12 of 31 proved`, or that the program is compiled.
progress() {
    if grep -q '^== summary$' "$log"; then
        echo "compiling what is proved"
        return
    fi
    proved=$(grep -c '^== [a-z0-9_]*$' "$log")
    crates=$(grep -c '^[a-z0-9_]*:' "$top/crates.txt")
    now=$(ps -s "$builder" -o args= 2>/dev/null |
        sed -n 's/.*rattle [a-z]* .*--crate-name \([a-z0-9_]*\) .*/\1/p' | sort -u | tr '\n' ' ' |
        sed 's/ $//; s/ / and /g')
    echo "${now:+in $now, }$proved of $crates proved"
}

# Ends a build that is under way, with all that it started, and then this call.
stop() {
    trap '' HUP INT TERM
    if [ -n "$builder" ]; then
        kill -s TERM -- "-$builder" 2>/dev/null
        wait "$builder" 2>/dev/null
    fi
    exit "$1"
}

build() {
    if ! command -v rt >/dev/null; then
        echo "j1: the program is not built, and the toolchain's command rt is not on the PATH: see README.md" >&2
        exit 126
    fi
    builder=
    began=$(date +%s)
    log=$(mktemp) || exit 126
    trap 'rm -f "$log"' EXIT
    trap 'stop 129' HUP
    trap 'stop 130' INT
    trap 'stop 143' TERM
    if [ -x "$program" ]; then
        echo "j1: a source is newer than the program, which is proved and built again" >&2
    else
        echo "j1: proving and building the program, which takes $whole_build; ./j1 --try WORDS runs it unproved in a minute" >&2
    fi
    # Crates that do not stand on one another are proved at once. The toolchain builds a program by running it: here with no
    # words, which it refuses.
    setsid sh -c 'cd "$1" && rt all check --jobs "$2" && cd "$3" && exec rt run' sh \
        "$top" "$(jobs_at_once)" "$crate" </dev/null >"$log" 2>&1 &
    builder=$!
    due=20
    while kill -0 "$builder" 2>/dev/null; do
        sleep 1
        seconds=$(($(date +%s) - began))
        if [ "$seconds" -ge "$due" ]; then
            echo "j1: still building after $seconds seconds, $(progress)" >&2
            due=$((due + 20))
        fi
    done
    wait "$builder"
    builder=
    if ! grep -q '^j1: bad words$' "$log"; then
        cat "$log" >&2
        echo "j1: the program was not built" >&2
        exit 126
    fi
    # What was written while it was built is newer than the program.
    touch -d "@$began" "$program"
    rm -f "$log"
    trap - EXIT HUP INT TERM
}
