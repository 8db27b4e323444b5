# For tools/told, in a plain shell: an explanation where a program has ended with status 1 or 2. The program's own line
# comes before it, unchanged. Only certain causes are printed.
. "$top/tools/words.sh"
. "$top/tools/help.sh"

# Prints further lines on standard error: explain STATUS PROGRAM WORD..
explain() {
    # A reader of standard error that has left must not change the status.
    trap '' PIPE
    status_told=$1
    program=$2
    shift 2
    read_words "$@"
    if [ "$status_told" -eq 2 ]; then
        explain_words "$@"
    else
        find_unread
        if [ -n "$unread" ] && is_cause; then
            say "$unread"
        else
            hint
        fi
    fi
}

# Prints a line, with an escape for each character that a terminal would obey.
say() {
    printf '%s: %s\n' "$name" "$(escaped "$1")" >&2
}

# Prints a text with escapes as `\x1b` and `\u202e`, which python/musmyrtle/visible.py spells so. They stand for control
# characters, formatting characters such as those that turn the direction of writing, and spaces other than the usual
# one. They also stand for characters for private use, and for bytes that are no UTF-8.
escaped() {
    # The awk of many systems knows no UTF-8, so this reads bytes. The bar keeps a line feed at the end.
    printf '%s|' "$1" | LC_ALL=C awk '
        BEGIN {
            for (i = 1; i < 256; i++) byte[sprintf("%c", i)] = i
            # Firsts and lasts, in ascending order.
            count = split("127 160 173 173 1536 1541 1564 1564 1757 1757 1807 1807 2192 2193 2274 2274 5760 5760 " \
                "6158 6158 8192 8207 8232 8239 8287 8292 8294 8303 12288 12288 57344 63743 65279 65279 65529 65531 " \
                "69821 69821 69837 69837 78896 78904 113824 113827 119155 119162 917505 917505 917536 917631 " \
                "983040 1048573 1048576 1114109", hidden, " ")
        }
        function escape(code) {
            return sprintf(code < 256 ? "\\x%02x" : code < 65536 ? "\\u%04x" : "\\U%08x", code)
        }
        function is_hidden(code,    i) {
            if (code < 127) return code < 32
            for (i = 1; i < count && hidden[i] <= code; i += 2) if (code <= hidden[i + 1]) return 1
            return 0
        }
        # Sets `code` to the character at a place, and returns its length, or 0 where the bytes are no UTF-8.
        function read_at(text, place,    first, length_, least, i, next_) {
            first = byte[substr(text, place, 1)]
            if (first < 128) { code = first; return 1 }
            if (first < 194 || first > 244) return 0
            length_ = first < 224 ? 2 : first < 240 ? 3 : 4
            least = first < 224 ? 128 : first < 240 ? 2048 : 65536
            code = first - (first < 224 ? 192 : first < 240 ? 224 : 240)
            for (i = 1; i < length_; i++) {
                next_ = byte[substr(text, place + i, 1)]
                if (next_ < 128 || next_ > 191) return 0
                code = code * 64 + next_ - 128
            }
            return code < least || code > 1114111 || code > 55295 && code < 57344 ? 0 : length_
        }
        { text = NR == 1 ? $0 : text "\n" $0 }
        END {
            for (place = 1; place < length(text); place += size) {
                size = read_at(text, place)
                if (!size) { printf "\\udc%02x", byte[substr(text, place, 1)]; size = 1 }
                else if (is_hidden(code)) printf "%s", escape(code)
                else printf "%s", substr(text, place, size)
            }
        }
    ' 2>/dev/null || printf '%s' "$1" | LC_ALL=C tr -c ' -~' '?'
}

explain_words() {
    more="./$name --help names the commands"
    if [ "$slip" = 'no command' ]; then
        find_program "$@"
    fi
    if [ -z "$command" ] && ! is_one_command; then
        read_commands
        known=$commands
        usage="$name COMMAND ..; COMMAND is one of$commands"
    else
        read_block "${command:-$name}"
        join_usage
        more="./$name${command:+ $command} --help describes the words"
    fi
    if [ -n "$slip" ]; then
        [ -z "$misspelt" ] || find_nearest "$misspelt"
        explain_pipe
        say "$slip"
    fi
    say "usage: $usage"
    [ ! -t 2 ] || say "$more"
}

# Adds to `slip` how a program reads a file of the words from a pipe.
explain_pipe() {
    case $input$slip in
    'missing: FILE'*)
        [ ! -p /dev/stdin ] || slip="$slip; standard input isn't read: /dev/stdin as FILE names the pipe"
        ;;
    esac
}

# Sets `usage` to the usage in `block`, in one line. Further forms of a command begin below the first one.
join_usage() {
    usage=
    while IFS= read -r line; do
        case $line in
        'usage: '*) usage=${line#usage: } ;;
        "       $name "*) usage="$usage | ${line#       }" ;;
        '        '*) usage="$usage ${line#"${line%%[! ]*}"}" ;;
        *) return ;;
        esac
    done <<END
$block
END
}

# Sets `slip` to a description of the first word, which is no command.
find_program() {
    case $1 in
    help | -h | --help)
        [ $# -eq 1 ] || shift
        misspelt=$1
        ;;
    esac
    if [ -z "$1" ]; then
        slip='the first word must be a command, not an empty word'
        return
    fi
    for other in fr_bench fr_view; do
        if grep -qxF -- "== $1" "$top/tools/help/$other"; then
            slip="unknown command $1, which is one of another program: ./$other $1"
            misspelt=
            return
        fi
    done
    case $1 in
    -*) slip="the first word must be a command, not the option $1" ;;
    *)
        slip="unknown command $1"
        [ ! -f "$1" ] || slip="the first word must be a command, not the file $1"
        ;;
    esac
}

# Adds to `slip` the nearest of the `known` words to the word $1, if one is near.
find_nearest() {
    case $1 in
    *"
"*) return ;;
    esac
    # The words are split here, and none is a pattern.
    # shellcheck disable=SC2086
    nearest=$(printf '%s\n' "$1" $known | awk '
        function least(a, b) { return a < b ? a : b }
        function distance(a, b,    i, j, row, before, kept) {
            for (j = 0; j <= length(b); j++) row[j] = j
            for (i = 1; i <= length(a); i++) {
                before = row[0]
                row[0] = i
                for (j = 1; j <= length(b); j++) {
                    kept = row[j]
                    row[j] = least(before + (substr(a, i, 1) != substr(b, j, 1)), least(row[j], row[j - 1]) + 1)
                    before = kept
                }
            }
            return row[length(b)]
        }
        NR == 1 { word = tolower(substr($0, 1, 40)); most = length(word) < 4 ? 1 : 2; next }
        { far = distance(word, $0) }
        index($0, word) == 1 && length(word) > 1 { far = least(far, 1) }
        far <= most { most = far - 1; best = $0 }
        END { print best }
    ' 2>/dev/null)
    [ -z "$nearest" ] || slip="$slip; did you mean $nearest?"
}

# Succeeds if the unreadable file is the cause. The program reads the cluster file first. So a scenario is the cause
# only where the cluster file is right, and the program is asked about that again.
is_cause() {
    [ "$unread_as" = SCENARIO ] || return 0
    case $name in
    fr_bench) question=check ;;
    *) question=schedule ;;
    esac
    [ -f "$file" ] && "$program" "$question" -- "$file" </dev/null >/dev/null 2>&1
}

# Prints what the program with the words reads from the terminal, if it reads anything.
explain_input() {
    read_words "$@"
    find_unread
    case $input$slip$unread in
    requests)
        say 'type a request a line: nodes and buffers are numbers, and no call has a cycle, as commit 0 0 0 x0a0b'
        say './fr_world --help lists the requests'
        ;;
    TRACE | NUMBERS | RECORDING)
        say "reading $input from the terminal, to its end (Ctrl-D); < FILE reads a file"
        ;;
    esac
}

# Explains `refused BadLine N` on a terminal: the first line of a file of requests that is a line of a scenario, has a
# name, or ends with a carriage return. Of a pipe the lines aren't known any more.
explain_session() {
    if [ -f /dev/stdin ]; then
        wrong=$(find_wrong_request 2>/dev/null </dev/stdin)
        [ -z "$wrong" ] || say "$wrong"
    elif [ -p /dev/stdin ] && [ -t 1 ]; then
        say 'a line with a name, a call with a cycle, or a carriage return at the end has the reply refused BadLine'
    fi
}

find_wrong_request() {
    # The file is opened anew, since the program has read this one to its end.
    LC_ALL=C awk '
        BEGIN {
            split("commit=NODE TASK BUFFER HEX,withdraw=NODE TASK BUFFER,read=NODE TASK BUFFER," \
                "pop=NODE TASK", calls, ",")
            for (i in calls) { split(calls[i], call, "="); form[call[1]] = call[1] " " call[2] }
            split("receive next look fetch put take observe report status trace origin lost mute babble", others, " ")
            for (i in others) has_node[others[i]]
        }
        function tell(what) { printf "line %d %s\n", NR, what; exit }
        /\r$/ { tell("ends with a carriage return; requests end with a line feed alone") }
        /^(frscenario|end|expect|expect-none)( |$)/ {
            tell("is of a scenario: ./fr_view answers FILE SCENARIO --cycles N runs one")
        }
        $1 in form && NF == split(form[$1], words, " ") + 1 {
            tell("has a cycle, as in a scenario; a request is " form[$1])
        }
        ($1 in form || $1 in has_node) && NF > 1 && $2 ~ /,/ {
            tell("has a list, as in a scenario; a request has one node")
        }
        ($1 in form || $1 in has_node) && NF > 1 && $2 !~ /^[0-9]+$/ {
            tell("names a node, as in a scenario; a request has its number")
        }
        ($1 == "receive" || $1 in form && $1 != "pop") && NF > 3 && $4 !~ /^[0-9]+$/ {
            tell("names a buffer, as in a scenario; a request has its number")
        }
    ' /dev/stdin
}

# On a terminal, names the command that explains the refusal.
hint() {
    [ -t 2 ] || return 0
    case $name-$command in
    fr_bench-audit | fr_view-capture | fr_view-frames) say './fr_view why < TRACE says why a trace is refused' ;;
    fr_bench-midpoint | fr_view-why | fr_world-* | *-) ;;
    *) say './musmyrtle lint FILE [SCENARIO --cycles N] says why an input is refused' ;;
    esac
}
