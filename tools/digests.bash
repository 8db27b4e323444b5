# Functions of tools/launch_anew, tools/build, tools/ship and the test command: the sources of a program, and its
# digest.

# Prints the digest of all sources below a folder: of a line for each file, its digest and its name, in the order of
# names.
#
# One digest serves all programs. With one for each, the launcher would read crates.txt at each call, and a renewal
# takes a minute.
digest_of_sources() {
    (
        CDPATH='' cd -- "$1" && set -o pipefail &&
            find crates.txt HANDLES crates/*/{src,specs,proofs} -type f -print0 | LC_ALL=C sort -z |
            xargs -0 sha256sum -- | digest_of -
    )
}

# Prints the digest of a file, or of standard input.
digest_of() {
    local digest
    digest=$(sha256sum -- "$1") && printf '%s\n' "${digest%% *}"
}

# Prints the rest of the line of a file of digests that begins with a word: `kit`, `sources`, or the name of a program.
recorded() {
    local word rest
    [[ -f $1 ]] || return 1
    while read -r word rest; do
        if [[ $word == "$2" ]]; then
            printf '%s\n' "$rest"
            return
        fi
    done <"$1"
    return 1
}

# Prints the programs of the repository below a folder.
programs() {
    local main
    for main in "$1"/crates/*/src/main.rt; do
        main=${main%/src/main.rt}
        printf '%s\n' "${main##*/}"
    done
}
