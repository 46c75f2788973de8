# Read by guppy-cargo, and by cargo-guppy where it is installed, after since.sh: has cargo say what the workspace was at a
# revision.

# Sets before to the words that name a file with what cargo says of the workspace as it was at the revision, or to nothing
# where that isn't known, which a line says. The file is gone at once, but for who has it open. What counts by what it
# changed alone is taken out of changed. The words are those of the program.
take_before() {
    before= state=
    [ "$next" -le 9 ] || {
        tell_no_state "there are six platforms"
        return
    }
    tell "asking cargo for the metadata at $revision"
    clean_state() {
        rm -rf "$state"
    }
    trap clean_state EXIT
    trap 'exit 129' HUP
    trap 'exit 130' INT
    trap 'exit 143' TERM
    state=$(mktemp -d) || fail "no temporary folder can be made"
    if why=$(make_state "$@" 3<&0 2>&1 < /dev/null); then
        eval "exec $next< \"\$state/metadata\""
        before="--before /dev/fd/$next"
        next=$((next + 1))
        changed=$(printf %s "$changed" | LC_ALL=C sed -f "$state/left-out")$(cat "$state/added")
    else
        line=$(printf '%s\n' "$why" | sed -n 's/^error: //p; s/^fatal: //p' | head -n 1)
        tell_no_state "${line:-$(printf '%s\n' "$why" | tail -n 1)}"
    fi
    trap - EXIT HUP INT TERM
    clean_state
}

# Says that the state before isn't known, and why, where that takes a member in.
tell_no_state() {
    case $changed in *"'Cargo.lock' "*) ;; *) return ;; esac
    echo "$name: what cargo built at $revision isn't known, so each change of a Cargo.lock affects all members: $1" >&2
}

# Makes the file metadata in the folder state: what cargo says of the workspace at the revision, as of one in the
# workspace's own folder. It has cargo look at the manifests of that commit, its Cargo.lock, its settings for cargo, and at
# empty sources, since only their names count.
make_state() (
    unset GIT_DIR GIT_WORK_TREE GIT_INDEX_FILE
    cd "$root/" && folder=$(git rev-parse --show-prefix) && cd "./$(git rev-parse --show-cdup)" || exit
    folder=${folder%/} top=$root
    [ -z "$folder" ] || top=${root%"/$folder"}
    case $folder/$top in ?*/"$root") echo "error: a symbolic link leads to the workspace" && exit 1 ;; esac
    # JSON and URLs have these as they are.
    case $top in *[!A-Za-z0-9/._+-]*) echo "error: its path has special characters" && exit 1 ;; esac
    GIT_INDEX_FILE=$state/index && export GIT_INDEX_FILE
    git read-tree "$revision^{commit}" && git ls-files -z > "$state/files" && mkdir "$state/top" || exit
    LC_ALL=C grep -zE '(^|/)(Cargo\.(toml|lock)|\.cargo-checksum\.json|\.cargo/.*)$' "$state/files" |
        git checkout-index -q -z --stdin --prefix="$state/top/" || exit
    cd "$state/top" || exit
    LC_ALL=C grep -z '\.rs$' "$state/files" > "$state/sources"
    LC_ALL=C sed -nz 's,/[^/]*$,,p' "$state/sources" | LC_ALL=C sort -zu | xargs -0 -r mkdir -p -- || exit
    xargs -0 -r touch -- < "$state/sources" && cd "./$folder" || exit
    # One that git doesn't keep is taken as it is.
    [ -e Cargo.lock ] || [ ! -e "$root/Cargo.lock" ] || cp -- "$root/Cargo.lock" . || exit
    beside=$(printf %s "$others" | sed "s/'--locked' //; s/'--offline' //; s/'--frozen' //")
    eval "\"\$cargo\" metadata --format-version 1 --locked --offline $features $beside" > "$state/printed" || exit
    LC_ALL=C sed "s,$state/top,$top,g" "$state/printed" > "$state/metadata" || exit
    leave_out_shown "$@"
    :
)
