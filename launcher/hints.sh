# What the line of a status means: a sentence more on a terminal, with the page and the anchor that tell the rest.

# The sentence, and the place in docs/.
hint() {
    printf '    %s: docs/%s\n' "$1" "$2" >&2
}

# What may be wrong with the words of a command.
hint_of_words() {
    case $1 in
        --*) hint 'no other words may stand beside this one, and --package takes one file' 'COMMANDS.md#launcher' ;;
        make) hint 'SEED is at most 65535, and COUNT from 1 to 200' 'COMMANDS.md#make' ;;
        forth) hint 'only --steps and a number of digits alone, at most 1000000000, may follow' 'COMMANDS.md#forth' ;;
        *) hint 'files come first, and their names do not begin with -; a number has digits alone, at most 1000000000, 20000000 for eval and 1000000 for trace' "COMMANDS.md#$1" ;;
    esac
}

# Where the source token of a number stands, as `line 3, column 12, DUP2: `, or nothing where that is not certain.
# Only the names that CHAR and [CHAR] read can look like a comment or a string; a source that defines these two is left alone.
place_of_token() {
    [ -f "$1" ] && [ -r "$1" ] || return
    LC_ALL=C awk -v wanted="$2" '
        function blank(c) { return c == " " || c == "\t" || c == "\r" || c == "\n" }
        { text = text $0 "\n" }
        END {
            line = 1
            column = 1
            at = 1
            end = length(text)
            while (at <= end) {
                c = substr(text, at, 1)
                if (blank(c)) {
                    at++
                    column++
                    if (c == "\n") { line++; column = 1 }
                    continue
                }
                rest = substr(text, at, 4096)
                token = match(rest, /[ \t\r\n]/) ? substr(rest, 1, RSTART - 1) : rest
                number++
                if (number == wanted) {
                    if (length(token) <= 64 && token !~ /[^!-~]/) printf "line %d, column %d, %s: ", line, column, token
                    else printf "line %d, column %d: ", line, column
                    exit
                }
                at += length(token)
                column += length(token)
                word = toupper(token)
                reads = 0
                if (named) named = 0
                else if (word == "CHAR" || word == "[CHAR]") {
                    if (before == ":" || before == "CONSTANT" || before == "VARIABLE" || before == "CREATE") exit
                    named = 1
                } else if (word == "(") reads = ")"
                else if (word == "\\") reads = "\n"
                else if (word == ".\"" || word == "S\"" || word == "ABORT\"") { reads = "\""; at++; column++ }
                before = word
                if (reads) {
                    to = index(substr(text, at), reads)
                    if (!to) exit
                    passed = substr(text, at, to)
                    at += to
                    if (split(passed, lines, "\n") > 1) {
                        line += gsub(/\n/, "\n", passed)
                        sub(/.*\n/, "", passed)
                        column = 1
                    }
                    column += length(passed)
                }
            }
        }' "$1"
}

# Why a source is refused.
hint_of_source() {
    place=
    case $command in
        run | certify | bound | build | eval) place=$(place_of_token "$file" "$token") ;;
    esac
    case $cause in
        NotText) sentence='a source has the bytes 32 to 126, tabs and ends of lines alone, in comments and texts too' ;;
        NameTooLong) sentence='a word or a name has at most 31 characters' ;;
        OpenComment) sentence='no ) follows this (' ;;
        OpenString) sentence='no " follows on the same line, or no space stands in front of the text' ;;
        NeedsName) sentence='a name is due here, and this is none that may stand here, or the text ends; or >BODY has no token of a created address' ;;
        UnknownWord) sentence='no name that is defined before, no word of the table and no number in the present BASE' ;;
        NumberRange) sentence='a number is from -32768 to 65535, since a cell has 16 bits' ;;
        NotInDefinition) sentence='this acts while the text is read, and cannot stand in a definition, in brackets or in a host part here' ;;
        OnlyInDefinition) sentence='this stands in a definition alone: outside only host words act, and MAIN is called by itself' ;;
        BadNest) sentence='this does not fit the structure that is open: an IF, BEGIN, DO, CASE or [ before it lacks its end, or its beginning' ;;
        TooDeep) sentence='at most 16 structures are open at once: make a definition of an inner one' ;;
        HostUnderflow) sentence='the stack of what acts while the text is read has too few cells for this word' ;;
        BadSplit) sentence='CODE-CELLS is the second token, behind one number from 2048 to 8000' ;;
        HostOverflow) sentence='the stack of what acts while the text is read has at most 32 cells' ;;
        TooManyWords) sentence='a source has at most 512 names' ;;
        DataFull) sentence='data space is passed: an access, or HERE, is outside it' ;;
        CodeFull) sentence='the code is larger than its room: a number and CODE-CELLS in front make more' ;;
        OpenDefinition) sentence='the text ends inside a definition: its ; or ] is missing' ;;
        NoMain) sentence='the text defines no MAIN, where a run begins' ;;
        *) return ;;
    esac
    hint "$place$sentence" "LANGUAGE.md#$cause"
}

# Why a definition has no certificate.
hint_of_certificate() {
    case $cause in
        Data) sentence='a word in it may find too few data cells, or the data stack of 33 cells may not do, as where recursion is not the last word; `j1 eval` runs it all the same' ;;
        Return) sentence='the return stack of 32 cells may not do, as where it calls itself and not as the last word: write a loop, or run it by `j1 eval`' ;;
        Shape) sentence='two ways that meet differ in what >R, R> or a loop left on the return stack, or an end is reached with some left' ;;
        *) return ;;
    esac
    hint "$sentence" "CERTIFICATE.md#$cause"
}

# Why a program has no step bound.
hint_of_bound() {
    case $cause in
        BeginLoop) sentence='nobody counts the turns of a BEGIN loop: a DO loop between two numbers has a bound' ;;
        OpenBounds) sentence='the turns of a loop, or a count, are no number that stands directly before it' ;;
        Recursion) sentence='a definition that calls itself has no bound: write a DO loop between two numbers' ;;
        Execute) sentence='what EXECUTE runs is not known beforehand: call the definition itself' ;;
        TooLarge) sentence='the bound is over 1,000,000,000,000,000,000' ;;
        *) return ;;
    esac
    hint "$sentence" "BOUNDS.md#$cause"
}

# What a halt status means. The library and the words that end a run give these numbers.
hint_of_halt() {
    case $number in
        1) sentence='ABORT ended the run' ;;
        2) sentence='ABORT" ended the run, with its text' ;;
        3) sentence='QUIT ended the run' ;;
        10) sentence='division by zero, or a quotient that is no cell' ;;
        11) sentence='# or a word that prints a number found a BASE outside 2 to 36' ;;
        12) sentence='HOLD found no room: the text of a number has at most 80 bytes' ;;
        13) sentence='EXECUTE found a cell that is no execution token' ;;
        *)
            hint "the program stored this number at the port 16388, which ends a run" 'COMMANDS.md#status-9'
            return
            ;;
    esac
    hint "$sentence" "COMMANDS.md#halted-$number"
}

# What the last line of a command says in other words: `explain STATUS LINE WORDS`.
explain() {
    status=$1
    line=${2##*"
"}
    command=$3
    file=${4-}
    cause=${line##*: }
    number=${line##* }
    case $status in
        2) hint 'there is no file of this name, seen from the folder in which j1 is called' 'COMMANDS.md#status-2' ;;
        3)
            token=${line#j1: source token }
            token=${token%%:*}
            hint_of_source
            ;;
        4) hint_of_certificate ;;
        5)
            case $line in
                'j1: image byte '*) hint 'the file is no image file: what stands before this byte, counted from 0, begins one, and no image file goes on with it' 'FORMATS.md#bad-offset' ;;
                'j1: listing line '*) hint 'the text is no assembly text: this line, counted from 1, is its first bad one' 'FORMATS.md#bad-line' ;;
            esac
            ;;
        6)
            case $command in
                forth) hint 'the session has made all instructions that it may make, 1,000,000,000 where --steps gives no number' 'FORTH.md#limits' ;;
                net) hint 'the turns of the net file did not bring each core to its end' 'NETWORKS.md#net-files' ;;
                trace) hint 'the trace was cut off: --steps N gives it more, and without it there are 1,000' 'COMMANDS.md#status-6' ;;
                *) hint 'the run was cut off: --steps N gives it more, and without it there are 10,000,000' 'COMMANDS.md#status-6' ;;
            esac
            ;;
        7) hint 'the program takes a byte of standard input, and there is none left' 'COMMANDS.md#status-7' ;;
        8) hint "$(printf 'no cell and no port at address %d (%04X hexadecimal)' "$number" "$number")" 'COMMANDS.md#status-8' ;;
        9) hint_of_halt ;;
        10) hint 'a file or standard input cannot be read: it is a folder, or may not be read' 'COMMANDS.md#status-10' ;;
        11) hint 'standard output or the file cannot be written: its folder is missing, it may not be written, or the disk is full' 'COMMANDS.md#status-11' ;;
        12) hint 'there is not enough memory' 'COMMANDS.md#status-12' ;;
        13) hint 'a source and a net file have at most 65,536 bytes, an image file 32,768, an assembly text 524,288' 'COMMANDS.md#status-13' ;;
        14)
            case $line in
                *underflow) hint 'a word found fewer data cells than it needs' 'COMMANDS.md#status-14' ;;
                *unbalanced) hint 'a word found other cells on the return stack than it needs, or a definition left some there' 'COMMANDS.md#status-14' ;;
            esac
            ;;
        16) hint_of_bound ;;
        17) hint 'the file is no net file: this line, counted from 1, is its first bad one' 'NETWORKS.md#net-files' ;;
    esac
}

# Passes a signal on to the program.
forward() {
    kill -s "$1" "$child" 2>/dev/null
}

# Runs the program with the caller's words, and then says what its line means. Standard input and output are the caller's, the
# program's line is kept until it ends, which is at once behind that line, and signals reach it as they would without this.
run_with_hint() {
    # A shell makes what it starts in the background ignore two signals. Where that cannot be turned back, or the caller
    # wants them ignored, or there is no standard input, there is no hint.
    (: <&0) 2>/dev/null || exec "$program" "$@"
    env --default-signal=INT,QUIT true 2>/dev/null || exec "$program" "$@"
    case $(sed -n 's/^SigIgn:.*\(.\)$/\1/p' "/proc/$$/status" 2>/dev/null) in [0189]) ;; *) exec "$program" "$@" ;; esac
    kept=$(mktemp) || exec "$program" "$@"
    exec 3<&0 4>"$kept" 5<"$kept"
    rm -f "$kept"
    for signal in HUP INT QUIT TERM; do
        # shellcheck disable=SC2064
        trap "forward $signal" "$signal"
    done
    env --default-signal=INT,QUIT "$program" "$@" <&3 2>&4 3<&- 4>&- 5<&- &
    child=$!
    # A signal ends the first wait, and not the program at once.
    while :; do
        wait "$child"
        status=$?
        kill -0 "$child" 2>/dev/null || break
    done
    trap - HUP INT QUIT TERM
    said=$(cat <&5)
    [ -z "$said" ] || printf '%s\n' "$said" >&2
    case $status in
        129 | 130 | 143) kill -s "$(kill -l "$status")" $$ ;;
        0) ;;
        *) explain "$status" "$said" "$@" ;;
    esac
    exit "$status"
}
