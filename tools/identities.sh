# For tools/launch and tools/launch_anew: what tells whether the program $name in $folder of the repository in $top
# is still the right one. The note is $found. This is for a plain shell.
#
# Identities and the digest of the program take 5 ms more than a comparison of times. Times alone miss a folder that is
# moved to dist/ and a note from the future. A change within one clock tick that keeps the size can be missed; ./test
# reads all sources.

# Succeeds if the program is the one that `digests` beside it names.
is_named() {
    digest=$(sha256sum <"$top/$folder/$name") || return
    while read -r word named; do
        if [ "$word" = "$name" ]; then
            [ "$digest" = "$named  -" ]
            return
        fi
    done <"$top/$folder/digests"
    return 1
} 2>/dev/null

# Prints the program's folder, and then a line for each file on which the choice of the program depends: device, number,
# mode, size, times and name. Times alone aren't enough, since moving a folder changes no time of its files.
identities() {
    CDPATH='' cd -- "$top" && printf '%s\n' "$folder" || return
    kit=
    if [ "$folder" != dist ]; then
        # A changed kit changes one of these.
        kit=$(command -v rt) && kit=$(readlink -f -- "$kit") || kit=
    fi
    find crates.txt HANDLES crates/*/src crates/*/specs crates/*/proofs "$folder/$name" "$folder/digests" \
        ${kit:+"$kit" "${kit%/*}"} -printf '%D %i %m %s %T@ %C@ %p\n'
}

# Succeeds if nothing has changed since the note was written.
is_as_noted() {
    identities 2>/dev/null | cmp -s - "$top/$found"
}
