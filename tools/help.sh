# For tools/launch and tools/explained.sh, in a plain shell: the help of the program $name. The texts are in
# tools/help/NAME. A line `== COMMAND` comes before the usage of the command, a sentence, its arguments and an example.
# A line `== after` comes before the end of the overview.

# Answers a call for help or for the version and ends the script. Other words are left to the program.
answer() {
    case $#${1-} in
    0 | 1help | 1-h | 1--help) print_overview ;;
    1--version | 1-V)
        read -r version <"$top/python/musmyrtle/VERSION"
        print "$name $version
"
        ;;
    esac
    command=$1
    if is_one_command; then
        command=$name
    elif [ "$1" = help ] || [ "$1" = -h ] || [ "$1" = --help ]; then
        ! read_block "$2" || print "$block"
    fi
    for word; do
        case $word in
        --) return ;;
        -h | --help) ! read_block "$command" || print "$block" ;;
        esac
    done
}

# Succeeds if the program has no names of commands.
is_one_command() {
    [ "$name" = fr_world ] || [ "$name" = fr_monitor ]
}

print() {
    if ! printf '%s' "$1" 2>/dev/null; then
        echo "$name: the help can't be written" >&2
        exit 1
    fi
    exit 0
}

# Sets `block` to the text below a line `== $1`. Fails where there is none.
read_block() {
    block=
    is_inside=
    while IFS= read -r line; do
        case $line in
        "== $1") is_inside=1 ;;
        '== '*) is_inside= ;;
        *)
            [ -z "$is_inside" ] || block="$block$line
" ;;
        esac
    done <"$top/tools/help/$name"
    [ -n "$block" ]
}

print_overview() {
    if is_one_command; then
        read_block "$name"
        print "$block"
    fi
    read_commands
    read_block after
    print "$overview
$block"
}

# Sets `overview` to the usage and the sentence of each command, and `commands` to their names.
read_commands() {
    overview=
    commands=
    is_next=
    while IFS= read -r line; do
        case $line in
        '== after') ;;
        '== '*) commands="$commands ${line#== }" ;;
        'usage: '*)
            overview="$overview${line#usage: }
"
            is_next=1
            continue
            ;;
        *)
            [ -z "$is_next" ] || overview="$overview    $line
" ;;
        esac
        is_next=
    done <"$top/tools/help/$name"
}
