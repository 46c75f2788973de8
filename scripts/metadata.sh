# Read by guppy-cargo, and by cargo-guppy where it is installed, after words.sh: where metadata comes from.

# Sets cargo to what runs it; the word is what is told where nothing does.
find_cargo() {
    cargo=${CARGO:-cargo}
    command -v "$cargo" > /dev/null || fail "$1"
}

# Ends where cargo did not do what was asked, and has said why: with the first word, or, where there is no workspace, with
# what else to give than its path.
give_up_cargo() {
    [ -n "$manifest" ] || "$cargo" locate-project < /dev/null > /dev/null 2>&1 ||
        fail "there is no Cargo.toml here: give the path of one by --manifest-path PATH$2"
    fail "$1, and says above why"
}

# Makes standard input the metadata of a workspace, those given or else what cargo says, by way of a file that is gone at
# once.
take_metadata() {
    copy=
    trap 'rm -f "$copy"' EXIT
    trap 'exit 129' HUP
    trap 'exit 130' INT
    trap 'exit 143' TERM
    copy=$(mktemp) || fail "no temporary file can be made"
    if [ -n "$metadata" ]; then
        copy_given
    else
        find_cargo "cargo is not on the path: put it there, or give metadata by --metadata FILE"
        tell "asking cargo for the metadata of the workspace"
        eval "\"\$cargo\" metadata --format-version 1 $manifest $features $others" < /dev/null > "$copy" ||
            give_up_cargo "cargo gives no metadata" ", or metadata by --metadata FILE"
    fi
    exec < "$copy"
    trap - EXIT HUP INT TERM
    rm -f "$copy"
}

# Copies the metadata that are given, and ends where they are of another workspace than the one whose changes are asked
# about. Cargo prints them in one line.
copy_given() {
    from=$metadata
    if [ "$metadata" = - ]; then
        from="standard input"
        tell "reading the metadata of a workspace from $from"
    fi
    told=$(cat -- "$metadata" 2>&1 > "$copy") ||
        refuse "no metadata can be read: $(printf %s "$told" | sed 's/^cat: //; q')"
    text=$(printf %s "$root" | LC_ALL=C sed -z 's/["\\]/\\&/g; s/\n/\\n/g')
    [ -z "$root" ] || grep -qaF "\"workspace_root\":\"$text\"" "$copy" ||
        fail "$from has no metadata of the workspace in $root; without --metadata cargo is asked"
    ! grep -qa '"resolve": *null' "$copy" ||
        echo "$name: $from has no resolved dependencies: let cargo metadata print it without --no-deps" >&2
}
