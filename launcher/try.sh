# Runs the program without proof: the toolchain compiles it with checks and runs it, anew each time, in a folder of its own with
# copies of the files that are read, and its output and its own lines come at the end.

# How long that takes, as measured (docs/PERFORMANCE.md), and how many seconds the program itself may then take.
whole_try='about a minute'
try_seconds=600

refuse() {
    printf 'j1: %s\n' "$1" >&2
    exit 126
}

# Ends a run that is under way, with all that it started, and then this call.
stop_trying() {
    trap '' HUP INT TERM
    if [ -n "$running" ]; then
        kill -s TERM "$running" 2>/dev/null
        wait "$running" 2>/dev/null
    fi
    exit "$1"
}

# Puts a file that is read where the toolchain gives it to the program, and sets `placed` to its name there. What is missing has a
# name and no file, and what cannot be read is `.`, a folder as good as any.
place() {
    files=$((files + 1))
    placed=f$files
    printf '%s\n' "$1" >"$folder/name-$files"
    if [ -d "$1" ] || { [ -e "$1" ] && [ ! -r "$1" ]; }; then
        placed=.
    elif [ -f "$1" ]; then
        case $1 in /*) ln -s "$1" "$folder/$placed" ;; *) ln -s "$PWD/$1" "$folder/$placed" ;; esac
    elif [ -e "$1" ]; then
        cat "$1" >"$folder/$placed"
    fi
}

# Goes through a net file. With no names it prints the sources that its lines `core NAME` name, and with their names in the
# order of these lines it prints the net file with them.
with_cores() {
    LC_ALL=C awk -v names="$2" '
        BEGIN { split(names, name, " ") }
        {
            line = $0
            if (match(line, /^[ \t\r]*core[ \t\r]+/)) {
                head = substr(line, 1, RLENGTH)
                rest = substr(line, RLENGTH + 1)
                match(rest, /^[^ \t\r]*/)
                core = substr(rest, 1, RLENGTH)
                rest = substr(rest, RLENGTH + 1)
                if (core != "" && core != "\\" && core !~ /^-/ && length(core) <= 255 && ++cores <= 16) {
                    if (names == "") print core
                    else line = head name[cores] rest
                }
            }
            if (names != "") print line
        }' "$1"
}

# Puts a net file and the sources of its cores where the toolchain gives them to the program.
place_net() {
    place "$1"
    net=$placed
    [ -f "$folder/$net" ] && [ "$(wc -c <"$folder/$net")" -le 65536 ] || return
    with_cores "$folder/$net" '' >"$folder/cores"
    names=
    while IFS= read -r core; do
        place "$core"
        names="$names $placed"
    done <"$folder/cores"
    [ -n "$names" ] || return
    with_cores "$folder/$net" "$names" >"$folder/net"
    mv "$folder/net" "$folder/$net"
    placed=$net
}

# Reads standard input to its end, where the command takes any, and says so where that takes longer. At a terminal it is empty.
take_input() {
    : >"$folder/input"
    case $command in certify | bound | build | list | asm | net | make | hex | kernel) return ;; esac
    [ ! -t 0 ] && (: <&0) 2>/dev/null || return
    exec 3<&0
    cat <&3 >"$folder/input" 3<&- &
    running=$!
    waited=0
    while kill -0 "$running" 2>/dev/null; do
        sleep 1
        waited=$((waited + 1))
        [ "$waited" -ne 3 ] || echo "j1: reading standard input to its end, which --try gives to the program as a whole; </dev/null gives none" >&2
    done
    wait "$running"
    running=
    exec 3<&-
    [ "$(wc -c <"$folder/input")" -le 67108864 ] || refuse 'with --try standard input has at most 64 MiB'
}

# The program's own lines, with the names that the caller gave to the files.
own_lines() {
    sed '/^checked: /,$d; /^interpreter: /,$d; /^$/d' "$folder/said" | while IFS= read -r line; do
        case $line in
            'j1: f'[0-9]*': missing' | 'j1: f'[0-9]*': too large')
                number=${line#j1: f}
                number=${number%%:*}
                [ ! -f "$folder/name-$number" ] || line="j1: $(cat "$folder/name-$number"): ${line##*: }"
                ;;
        esac
        printf '%s\n' "$line"
    done
}

try_unproved() {
    if ! is_command "$@"; then
        echo 'j1: bad words' >&2
        explain_words "$@"
        exit 1
    fi
    case $1 in
        -*) refuse "--try is for the commands of the program, and $1 is none" ;;
        forth)
            [ ! -t 0 ] || refuse "with --try a session cannot be typed at a terminal, since its lines are all read before it begins: give them by a pipe or a file, or leave --try out"
            ;;
    esac
    [ -d "$top/crates" ] || refuse 'the program of this package was proved where it was built: leave --try out'
    command -v rt >/dev/null || refuse "--try needs the toolchain's command rt on the PATH: see README.md"
    folder=$(mktemp -d) || exit 126
    running=
    trap 'rm -rf "$folder"' EXIT
    trap 'stop_trying 129' HUP
    trap 'stop_trying 130' INT
    trap 'stop_trying 143' TERM
    echo "j1: what runs now is not proved on this machine; it is compiled with checks first, which takes $whole_try each time, and what it writes comes when it has ended" >&2

    # The words of the call, with the names of files as the program finds them.
    command=$1
    named=${2-}
    parts=$(usage_line "$command")
    parts=${parts#"j1 $command "}
    shift
    files=0
    left=$#
    while [ "$left" -gt 0 ]; do
        part=${parts%% *}
        parts=${parts#* }
        word=$1
        shift
        case $command:$part in
            *:'[--steps' | *:'N]' | *:'K]' | *:SEED | *:COUNT) placed=$word ;;
            build:IMG | asm:IMG | kernel:IMG | *:OUT)
                case $word in /*) placed=$word ;; *) placed=$PWD/$word ;; esac
                is_name "$placed" || refuse "with --try the path of a file to be written has at most 255 characters, and $placed has more"
                ;;
            net:*) place_net "$word" ;;
            *) place "$word" ;;
        esac
        set -- "$@" "$placed"
        left=$((left - 1))
    done
    set -- -- "$command" "$@"
    while [ "$files" -gt 0 ]; do
        [ ! -e "$folder/f$files" ] || set -- --data "f$files=$folder/f$files" "$@"
        files=$((files - 1))
    done
    take_input
    (cd "$crate" && exec rt try --seconds "$try_seconds" "$@" <"$folder/input") 2>"$folder/said" &
    running=$!
    wait "$running"
    running=
    ended=$(sed -n '$s/^run=ended status=\([0-9]*\) .*proved=no$/\1/p' "$folder/said")
    if [ -n "$ended" ]; then
        lines=$(own_lines)
        [ -z "$lines" ] || printf '%s\n' "$lines" >&2
        [ ! -t 2 ] || explain "$ended" "$lines" "$command" "$named"
        exit "$ended"
    fi
    reason=$(sed -n 's/^checked: no-answer: //p' "$folder/said")
    [ -n "$reason" ] || cat "$folder/said" >&2
    refuse "--try has no answer${reason:+, since $reason ($try_seconds seconds, 1 MiB)}: leave it out"
}
