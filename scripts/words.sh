# Read by guppy-cargo, and by cargo-guppy where it is installed: takes the scripts' own options out of the words, and has
# the program answer the others. Before it is read, name is what stands before each message, and fail ends with one;
# program is the proved program, where there is one, and run ends as the program does with the words.

# Ends with status 2: the words are wrong.
refuse() {
    printf '%s\n' "$name: $1" >&2
    exit 2
}

# Tells a terminal what is done.
tell() {
    [ ! -t 2 ] || echo "$name: $1" >&2
}

# Prints lines that sort the words: each says of what kind its words are (asked: options of the program), and has the second word as "${2}", for which
# the shell puts that word. (A list that grows word by word would take minutes with some thousand paths.)
sort_words() {
    at=0 option= given= for_cargo= input= platform= host= host_cfgs= first=
    for word do
        at=$((at + 1))
        case $option,$word in ,--cfgs | ,--cfgs=*) ;; ,*) name_platform ;; esac
        case $option,$word in
        ,--metadata | ,--since | ,--manifest-path | ,--filter-platform | ,--features | ,-F | ,--paths-from | ,--kinds | \
            ,--platform | ,--cfgs | ,--host | ,--host-cfgs | ,--format | ,-p | ,--resolver | ,--before)
            option=$word
            ;;
        ,--metadata=* | ,--since=* | ,--manifest-path=* | ,--filter-platform=* | ,--features=* | ,-F=* | ,--paths-from=* | \
            ,--kinds=* | ,--platform=* | ,--cfgs=* | ,--host=* | ,--host-cfgs=* | ,--format=* | ,-p=* | ,--resolver=* | \
            ,--before=*)
            sort_option "${word%%=*}" "${word#*=}" "\"\${$at#*=}\""
            ;;
        ,-F?*) sort_option -F "${word#-F}" "\"\${$at#-F}\"" ;;
        ,--locked | ,--offline | ,--frozen | ,--all-features | ,--no-default-features | ,--workspace | ,--ids | ,--null | \
            ,--tests)
            sort_option "$word"
            ;;
        ,*)
            echo "left \"\${$at}\""
            first=${first:-$word}
            ;;
        *,-?*) break ;;
        *)
            sort_option "$option" "$word" "\"\${$at}\""
            option=
            ;;
        esac
    done
    [ -z "$option" ] || refuse "$option needs a value"
    name_platform
    name_host
    case $given in *--metadata*) need_no_cargo ;; esac
    case $input in ?*' '?*) refuse "standard input can't be read for $input" ;; esac
}

# Ends where one of the options is for cargo. Where it is asked what cargo builds, those of features are the program's.
need_no_cargo() {
    for it in $for_cargo; do
        case $it in
        --features | -F | --all-features | --no-default-features) ! is_of_builds "$first" || continue ;;
        esac
        refuse "--metadata can't be used with $it: cargo is not asked then"
    done
}

# Prints the line for a platform behind which no --cfgs stands, where there is one.
name_platform() {
    [ -z "$platform" ] || echo "named $platform"
    platform=
}

# Prints the line for the host, where one is named: rustc is asked about it where no --host-cfgs is there.
name_host() {
    [ -z "$host" ] || echo "${host_cfgs:-host} $host"
}

# Prints the line for one of the options. The second word is its value, and the third stands for that.
sort_option() {
    value=$3
    case $1,$2 in
    --metadata,- | --metadata,/dev/stdin) input=${input:+$input and }$1 value=- ;;
    --paths-from,- | --paths-from,/dev/stdin | --before,- | --before,/dev/stdin | --cfgs,- | --cfgs,/dev/stdin | --host-cfgs,- | --host-cfgs,/dev/stdin)
        input=${input:+$input and }$1 value=/dev/fd/3
        ;;
    --platform, | --host,) refuse "$1 needs a value" ;;
    esac
    case $1 in
    --paths-from | --before)
        echo "left $1 $value"
        return
        ;;
    --kinds | --format | -p | --resolver)
        echo "asked $1 $value"
        return
        ;;
    --platform)
        platform=$value
        return
        ;;
    --cfgs)
        [ -n "$platform" ] || refuse "--cfgs goes behind --platform TRIPLE"
        echo "asked --platform $platform $1 $value"
        platform=
        return
        ;;
    --host)
        [ -z "$host" ] || echo "asked $1 $host"
        host=$value
        return
        ;;
    --host-cfgs)
        echo "asked $1 $value"
        host_cfgs="asked --host"
        return
        ;;
    --workspace | --ids | --null | --tests)
        echo "asked $1"
        return
        ;;
    --metadata | --since)
        case $1,$2 in --since,-* | *,) refuse "$1 needs a value" ;; esac
        case $given in *"$1"*) refuse "$1 is given twice" ;; esac
        given="$given $1"
        echo "${1#--} $value"
        return
        ;;
    --manifest-path) echo "manifest $1=$value" ;;
    --filter-platform) echo "others $1=$value" ;;
    --features | -F) echo "features --features=$value" ;;
    --all-features | --no-default-features) echo "features $1" ;;
    *) echo "others $1" ;;
    esac
    for_cargo="$for_cargo $1"
}

# The words of this kind, in sorted.
of_kind() {
    echo "$sorted" | sed -n "s/^$1 //p" | tr '\n' ' '
}

# Whether the words ask what the program says of itself, for which no metadata is needed.
asks_for_help() {
    case ${1-} in --help | -h | help | --version | -V) return 0 ;; esac
    [ $# -eq 2 ] || return 1
    case $2 in --help | -h) return 0 ;; esac
    return 1
}

# Whether the proved program refuses the words, as it does before it reads its input. It reads files by then that the words
# name, and a pipe or a terminal can't be read twice.
refuses() {
    [ -n "$program" ] || return 1
    for word do
        { [ ! -p "$word" ] && [ ! -c "$word" ]; } || [ "$word" = /dev/null ] || return 1
    done
    "$program" "$@" < /dev/null > /dev/null 2>&1
    [ $? -eq 2 ]
}

# Whether the words say something of the host.
names_host() {
    case $sorted in *"asked --host"*) return 0 ;; esac
    [ -n "$(of_kind host)" ]
}

# Sets platforms to what the program is told of platforms that rustc is asked about, as the words say: of the host that
# they name, or its own where they name none, and of the others.
ask_rustc() {
    platforms= named=$(of_kind named)
    [ -z "$named" ] || names_host || eval "take_own_host $named"
    if eval "needs_platform $(of_kind left)"; then
        eval "take_own_platforms $(of_kind host)"
        return
    fi
    eval "take_hosts $(of_kind host)"
    eval "take_platforms $named"
}

# Whether the words name a file with the state before.
gives_before() {
    [ -n "$(of_kind 'left --before')" ]
}

# Whether cargo is asked about the state before.
makes_before() {
    [ -n "$revision" ] && [ -n "$asks_cargo" ] && ! gives_before
}

# Ends as the program does with the words, on the metadata that they want.
answer() {
    sorted=$(sort_words "$@") || exit
    eval "metadata=$(of_kind metadata) revision=$(of_kind since)"
    manifest=$(eval "quote $(of_kind manifest)")
    features=$(eval "quote $(of_kind features)")
    others=$(eval "quote $(of_kind others)")
    asks_cargo=
    [ -n "$metadata" ] || asks_cargo=1
    ask_rustc "$@"
    # The command stands first: the program takes its options behind it too.
    eval "set -- $(of_kind left) $(of_kind asked) $platforms"
    # Nothing else depends on what standard input is.
    case $sorted in *"left --paths-from /dev/fd/3"* | *"left --before /dev/fd/3"* | *"cfgs /dev/fd/3"*) exec 3<&0 ;; esac
    [ "$metadata" = - ] || exec < /dev/null
    ! asks_for_help "$@" || run "$@"
    if is_of_builds "${1-}"; then
        eval "set -- \"\$@\" $features"
        features=--all-features
    fi
    root=
    if [ -n "$revision" ]; then
        [ "${1-}" = affected ] || refuse "--since goes with affected, as in: $name affected --since main"
        take_root
        # Nothing may have changed.
        set -- "$@" --paths-from /dev/null
    fi
    ! refuses "$@" || run "$@"
    # Which members a change affects, and in which order they can be published, depends on optional dependencies too.
    case ${1-} in affected | publish-order) features=${features:---all-features} ;; esac
    if is_of_builds "${1-}" || gives_before || makes_before; then
        take_resolver
        set -- "$@" $resolver
    fi
    take_metadata
    if [ -n "$revision" ]; then
        take_changed
        before=
        ! makes_before || take_before "$@"
        shift
        eval "set -- affected $changed $before \"\$@\""
        are_few "$@"
    fi
    run "$@"
}
