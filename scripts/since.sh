# Read by guppy-cargo, and by cargo-guppy where it is installed, after metadata.sh: has git say what changed.

# Ends with status 5: what changed is not known.
give_no_changes() {
    printf '%s\n' "$name: $1" >&2
    exit 5
}

# Ends where there are more words than a program can be given.
are_few() {
    env true "$@" 2> /dev/null ||
        give_no_changes "more paths changed since $revision than a program can be given: test all members"
}

# Sets root to the workspace's folder.
take_root() {
    find_cargo "cargo is not on the path"
    root=$(eval "\"\$cargo\" locate-project --workspace --message-format plain $manifest" < /dev/null) ||
        give_up_cargo "cargo finds no workspace" ""
    root=${root%/*}
    root=${root:-/}
}

# Sets changed to the paths that changed since the revision, each in quotes for the shell and followed by a space. Cargo has
# been asked for the metadata by then, and may have written another Cargo.lock, which is one of them.
take_changed() {
    tell "asking git what changed since $revision"
    command -v git > /dev/null || give_no_changes "git is not on the path"
    changed=$(print_changed < /dev/null) || give_no_changes "git does not say what changed since $revision"
}

# Prints the paths that changed, from the workspace's root, each in quotes for the shell and followed by a space; one that
# begins as an option does is given as `./-`. Variables that name a repository, as a hook has them, need not name this one.
print_changed() (
    unset GIT_DIR GIT_WORK_TREE GIT_INDEX_FILE
    cd "$root/" && folder=$(git rev-parse --show-prefix) &&
        commit=$(git rev-parse --verify "$revision^{commit}") || exit
    case $commit in *[!0-9a-f]*) exit 1 ;; esac
    ! git check-ignore -q . || { echo "fatal: git ignores all of the workspace" >&2 && exit 1; }
    cd -P "./$(git rev-parse --show-cdup)" || exit
    # Git's paths begin at the repository's top, and lie in the workspace's folder, or in one above it.
    steps= up=
    while [ -n "$folder" ]; do
        pattern=$(printf %s "$folder" | LC_ALL=C sed -z 's/[],.*^$[\]/\\&/g; s/\n/\\n/g')
        steps="${steps}s,^$pattern,$up,; t quote
" up=../$up folder=${folder%/}
        folder=${folder%"${folder##*/}"}
    done
    paths=$(
        {
            git diff --name-only -z --no-renames --ignore-submodules=none "$commit" -- &&
                git ls-files --others --exclude-standard -z &&
                printf '\0'
        } | LC_ALL=C sed -z -e "${steps}s,^,$up," -e ': quote' -e 's,^-,./-,' -e "s/'/'\\\\''/g; s/.*/'&'/" | tr '\0' ' '
    )
    # The empty path at the end says that all of this went well.
    case $paths in *"'$up' ") printf %s "${paths%"'$up' "}" ;; *) exit 1 ;; esac
)
