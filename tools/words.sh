# For tools/launch, tools/launch_anew and tools/told, in a plain shell: slips in the words of a call. It starts another
# program only for words that aren't ASCII, so that it takes next to no time.
#
# The programs decide. A slip is printed only after a program has failed, and only if it is the cause. tests/commands
# compares the slips with the programs.

# Runs the program $1 with the words after it. If these look wrong, or on a terminal, tools/told runs it, stays, and
# explains a failure. Otherwise no other process stays.
start() {
    program=$1
    shift
    if [ "$name-${1-}" = fr_bench-run ]; then
        . "$top/tools/busy.sh"
        meet_busy_cores
    fi
    if [ -t 2 ] || has_slip "$@"; then
        exec "$top/tools/told" "$name" "$program" "$@"
    fi
    # The program takes the launcher's place with its process ID, so SIGKILL reaches it. Reading the words takes 0.3 ms,
    # and tools/told for all calls would take 1.4.
    exec "$program" "$@"
}

# Succeeds if the words can't be right, or name an unreadable file.
has_slip() {
    read_words "$@"
    find_unread
    [ -n "$slip$unread" ]
}

# Sets the arguments of the command $1 of the program $name: its `places` in order, its `options` with a value, its
# `flags` without one, and its standard `input`, if that is a file. Fails if there is no such command.
find_command() {
    places=
    options=
    flags=
    input=
    case $name-$1 in
    fr_bench-audit | fr_view-why | fr_view-fifo) input=TRACE ;;
    fr_bench-midpoint) input=NUMBERS ;;
    fr_bench-check | fr_bench-plan | fr_view-links) places=FILE ;;
    fr_bench-run) places='FILE SCENARIO' options=--cycles flags=--free ;;
    fr_view-schedule) places=FILE options=--cycle ;;
    fr_view-latency) places=FILE options='--slot --channel' ;;
    fr_view-capture) flags='--own --until-fault' input=TRACE ;;
    fr_view-frames) flags='--all --until-fault' input=TRACE ;;
    fr_view-outcome | fr_view-answers | fr_view-commits | fr_view-record | fr_view-windows | fr_view-reasons | \
        fr_view-origins | fr_view-received | fr_view-bus)
        places='FILE SCENARIO' options=--cycles flags=--endless ;;
    fr_view-matrix) places='FILE SCENARIO' options='--cycles --channel --node --from --from-window' ;;
    fr_view-trace) places='NODE FILE SCENARIO' options=--cycles ;;
    *) return 1 ;;
    esac
}

# Sets `range` to the allowed values of the argument $1, and succeeds if $2 is one of them.
is_in_range() {
    case $1 in
    --cycles) least=1 most=$most_cycles ;;
    --cycle) least=0 most=63 ;;
    --slot) least=1 most=2047 ;;
    --node | NODE) least=0 most=15 ;;
    --from) least=0 most=1023 ;;
    --from-window) least=0 most=4095 ;;
    --findings) least=0 most=4294967295 ;;
    --macrotick) least=1 most=4294967295 ;;
    --keep) least=1 most=64 ;;
    --trace-nodes)
        range='different numbers from 0 to 15 with commas between them'
        is_list "$2"
        return
        ;;
    --channel)
        range='A or B'
        [ "$2" = A ] || [ "$2" = B ]
        return
        ;;
    *) return 0 ;;
    esac
    range="a whole number from $least to $most"
    case $2 in
    '' | *[!0123456789]* | ???????????*) return 1 ;;
    0?*)
        range="$range without leading zeros"
        return 1
        ;;
    esac
    [ "$2" -ge "$least" ] && [ "$2" -le "$most" ]
}

# Succeeds if $1 is a list of different nodes.
is_list() {
    left=$1,
    nodes=,
    while [ -n "$left" ]; do
        case ${left%%,*} in
        [0-9] | 1[0-5]) ;;
        *) return 1 ;;
        esac
        case $nodes in
        *",${left%%,*},"*) return 1 ;;
        esac
        nodes=$nodes${left%%,*},
        left=${left#*,}
    done
}

# Sets `slip` to the first fault of the words, or to nothing. For a misspelt word it also sets `misspelt`, and `known`
# to the words to choose from. For right words it sets `file` and `scenario` to the files that they name.
read_words() {
    forget_words
    case " $* " in
    *' --endless '*) most_cycles=4000000 ;;
    esac
    if ! is_ascii "$*" && ! is_utf8 "$*"; then
        slip="a word isn't UTF-8"
        ! find_command "${1-}" || command=$1
    elif [ "$name" = fr_world ]; then
        places=FILE
        options='--cycles --keep --record --capture --trace --trace-nodes'
        flags=--endless
        input=requests
        read_arguments "$@"
    elif [ "$name" = fr_monitor ]; then
        places=FILE
        options='--findings --channel --macrotick'
        flags='--whole --frames'
        input=RECORDING
        read_arguments "$@"
    elif find_command "${1-}"; then
        command=$1
        shift
        read_arguments "$@"
    else
        slip='no command'
        misspelt=${1-}
    fi
}

forget_words() {
    slip=
    misspelt=
    known=
    given=' '
    count=0
    file=
    scenario=
    node=
    has_file=
    has_scenario=
    has_surplus=
    surplus=
    command=
    input=
    most_cycles=1024
}

# Reads the words after the command.
read_arguments() {
    is_open=1
    while [ $# -gt 0 ] && [ -z "$slip" ]; do
        case $is_open$1 in
        1--) is_open= ;;
        1--*)
            read_option "$@"
            shift "$((taken - 1))"
            ;;
        1-?*) unknown_option "$1" ;;
        *) read_place "$1" ;;
        esac
        shift
    done
    [ -n "$slip" ] || find_missing
}

# Returns whether the option $1 takes a name, and the word $2 looks like an option. A name `-x` is `--record=-x`.
is_no_name() {
    case "$1 $2" in
    '--record -'?* | '--capture -'?* | '--trace -'?*) return 0 ;;
    *) return 1 ;;
    esac
}

# Reads the option $1, and the word $2 if it is its value. Sets `taken` to the number of words read.
read_option() {
    taken=1
    option=${1%%=*}
    case $option in
    *' '*)
        unknown_option "$option"
        return
        ;;
    esac
    case " $options " in
    *" $option "*) ;;
    *)
        case " $flags " in
        *" $1 "*) ;;
        *" $option "*) slip="$option takes no value" ;;
        *) unknown_option "$option" ;;
        esac
        ;;
    esac
    case $given in
    *" $option "*) slip=${slip:-"$option stands twice"} ;;
    esac
    given="$given$option "
    case " $options " in
    *" $option "*) ;;
    *) return ;;
    esac
    if [ "$1" != "$option" ]; then
        value=${1#*=}
    elif [ $# -eq 1 ] || [ "$2" != "${2#--}" ] || is_no_name "$option" "$2"; then
        slip=${slip:-"$option has no value"}
        return
    else
        value=$2
        taken=2
    fi
    is_in_range "$option" "$value" || slip=${slip:-"$option must be $range, not ${value:-an empty word}"}
}

unknown_option() {
    slip="${command:-$name} has no option $1"
    misspelt=$1
    known="$options $flags"
}

# Reads a word that is no option.
read_place() {
    count=$((count + 1))
    place=1
    for argument in $places; do
        if [ "$place" -eq "$count" ]; then
            case $argument in
            NODE) node=$1 ;;
            FILE) file=$1 has_file=1 ;;
            SCENARIO) scenario=$1 has_scenario=1 ;;
            esac
            return
        fi
        place=$((place + 1))
    done
    has_surplus=1
    surplus=${surplus:-$1}
}

# Finds missing and surplus words, and a node whose place has another word.
find_missing() {
    if [ -n "$has_surplus" ]; then
        find_surplus
        return
    fi
    missing=
    place=1
    for argument in $places; do
        [ "$place" -le "$count" ] || missing="$missing, $argument"
        place=$((place + 1))
    done
    case "$options $given" in
    *--cycles*--cycles* | *' --endless '*) ;;
    *--cycles*)
        missing="$missing, --cycles N"
        [ "$name" != fr_world ] || find_length
        ;;
    esac
    if [ "$command" = trace ] && [ "$count" -gt 0 ] && ! is_in_range NODE "$node"; then
        if [ "$count" -eq 2 ]; then
            slip="NODE is missing in front of FILE; it must be $range"
        else
            slip="NODE must be $range, not ${node:-an empty word}"
        fi
    elif [ -n "$missing" ]; then
        slip="missing: ${missing#, }"
    elif [ "$name" = fr_world ]; then
        find_stray
    fi
}

# Changes `missing` for a world without a length: options of an endless one want --endless, and one may be meant.
find_length() {
    find_stray
    if [ -n "$slip" ]; then
        missing="${missing%, --cycles N}, --endless (${slip%% *} needs it)"
        slip=
    else
        missing="$missing or --endless"
    fi
}

# Finds an option that a run with history doesn't have, and nodes without a folder for their traces.
find_stray() {
    for option in --keep --record --capture --trace --trace-nodes; do
        case "$given" in
        *' --endless '*) ;;
        *" $option "*) slip="$option needs --endless" ;;
        esac
    done
    case "$given" in
    *' --trace '*) ;;
    *' --trace-nodes '*) slip='--trace-nodes needs --trace' ;;
    esac
}

find_surplus() {
    slip="one word too many: ${surplus:-an empty word}"
    for option in --cycles --cycle; do
        case " $options $given" in
        *" $option "*" $option "*) ;;
        *" $option "*) ! is_in_range "$option" "$surplus" || slip="$option is missing in front of $surplus" ;;
        esac
    done
    case $input in
    TRACE | NUMBERS | RECORDING) slip="$slip; ${command:-$name} reads $input on standard input: < $surplus" ;;
    esac
}

# Sets `unread` to the unreadable file of the words and the reason, or to nothing, and `unread_as` to its argument.
find_unread() {
    unread=
    unread_as=
    [ -z "$slip" ] || return 0
    for unread_as in ${has_file:+FILE} ${has_scenario:+SCENARIO}; do
        case $unread_as in
        FILE) try_file "$file" ;;
        SCENARIO) try_file "$scenario" ;;
        esac
        [ -z "$unread" ] || return 0
    done
    unread_as=
    if [ -n "$input" ] && [ -d /dev/stdin ]; then
        unread='standard input is a folder'
    fi
}

try_file() {
    if [ -z "$1" ]; then
        unread="$unread_as is an empty word"
    elif [ -d "$1" ]; then
        unread="is a folder: $1"
    elif [ ! -e "$1" ]; then
        find_gap "$1"
    elif [ ! -r "$1" ]; then
        unread="permission denied: $1"
    fi
}

# Prints why a file can't be found: it doesn't exist, or a link or a folder on its path is at fault.
find_gap() {
    unread="no such file: $1"
    if [ -L "$1" ]; then
        unread="$unread (a link to nothing)"
        return
    fi
    above=$1
    while [ "$above" != "${above%/*}" ] && [ ! -e "$above" ]; do
        above=${above%/*}
    done
    if [ -z "$above" ] || [ ! -e "$above" ]; then
        return
    elif [ ! -d "$above" ]; then
        unread="$unread ($above isn't a folder)"
    elif [ ! -x "$above" ]; then
        unread="permission denied: $1 (in the folder $above)"
    fi
}

is_ascii() {
    case $1 in
    *[!\ -~]*) return 1 ;;
    esac
}

is_utf8() {
    printf '%s' "$1" | iconv -f UTF-8 -t UTF-8 >/dev/null 2>&1
    # Without iconv each text counts as UTF-8.
    [ $? -ne 1 ]
}
