# Read by guppy-cargo and guppy-run, also where they are installed: has rustc say what is set on platforms. Before it is
# read, fail ends with a message.

# Where the file of the next platform is opened.
next=4

# Prints the words, each in quotes for the shell and followed by a space.
quote() {
    [ $# -eq 0 ] || printf '%s\0' "$@" | LC_ALL=C sed -z "s/'/'\\\\''/g; s/.*/'&'/" | tr '\0' ' '
}

# Prints what rustc says is set on the platform with the flags that cargo would give it, where cargo is asked and says so.
# That takes an option of cargo's that isn't stable, with which rustc prints more than it prints cargo.
flagged_cfgs() {
    [ -n "${asks_cargo-}" ] || return 1
    eval "RUSTC_BOOTSTRAP=1 \"\${CARGO:-cargo}\" rustc -Z unstable-options --print cfg --target \"\$1\" $manifest" \
        < /dev/null 2> /dev/null
}

# Prints the lines that the words have, one a line, but for those of the second word.
lines_but() {
    if [ -n "$2" ]; then
        printf '%s\n' "$1" | LC_ALL=C grep -vxF -e "$2"
    else
        printf '%s\n' "$1"
    fi
}

# Prints what rustc says is set on the platform, with what the flags set that cargo would give it, and without what they
# unset.
print_cfgs() {
    plain=$("$RUSTC" --print cfg --target "$1" < /dev/null) || return
    if flagged=$(flagged_cfgs "$1") && bare=$(RUSTC_BOOTSTRAP=1 "$RUSTC" --print cfg --target "$1" < /dev/null); then
        lines_but "$flagged" "$bare"
        lines_but "$plain" "$(lines_but "$bare" "$flagged")"
    else
        printf '%s\n' "$plain"
    fi
}

# Prints what rustc says is set on the host: cargo gives no flags for what runs there, where it builds for a platform
# that is named.
print_host_cfgs() {
    "$RUSTC" --print cfg --target "$1" < /dev/null
}

# Ends where rustc can't be asked what is set on the platform, the third word, which goes behind the first, and a file
# behind the second.
need_rustc() {
    help="give what it prints for $3 by $1 $3 $2 FILE"
    [ "$next" -le 9 ] || fail "rustc is asked about six platforms at most, the host among them: $help"
    command -v "${RUSTC:=rustc}" > /dev/null || fail "rustc is not on the path: put it there, or $help"
}

# Adds to platforms the words that name this one, behind the first word, and behind the second its file, each in quotes
# for the shell and followed by a space: what the third prints of the fourth is in a file that is gone at once, but for
# who has it open.
take_asked() {
    need_rustc "$1" "$2" "$4"
    cfgs=$(mktemp) || fail "no temporary file can be made"
    eval "exec $next<> \"\$cfgs\""
    rm -f "$cfgs"
    "$3" "$4" >&"$next" || fail "rustc does not say what is set for the platform $4, and says above why"
    platforms=$platforms$(quote "$1" "$4" "$2" "/dev/fd/$next")
    next=$((next + 1))
}

# Adds to platforms the words that name each of these.
take_platforms() {
    for platform do
        take_asked --platform --cfgs print_cfgs "$platform"
    done
}

# Adds to platforms the words that name the host, where one is given.
take_hosts() {
    for platform do
        take_asked --host --host-cfgs print_host_cfgs "$platform"
    done
}

# Adds to platforms the words that name the host on which rustc runs, where it can be asked.
take_own_host() {
    need_rustc --platform --cfgs "$1"
    host=$("$RUSTC" -vV < /dev/null | sed -n 's/^host: //p')
    [ -z "$host" ] || take_hosts "$host"
}

# Adds to platforms the words that name this one, behind the first word, with a file where the word behind it names
# none.
take_platform() {
    case $1,$3 in
    --platform,--cfgs | --platform,--cfgs=* | --host,--host-cfgs | --host,--host-cfgs=*)
        platforms=$platforms$(quote "$1" "$2")
        ;;
    --platform,*) take_platforms "$2" ;;
    *) take_hosts "$2" ;;
    esac
}

# Sets platforms to the options in front of the words, each in quotes for the shell and followed by a space, with a file for
# each platform behind which no --cfgs stands, as for the host, and count to how many words they were.
take_options() {
    platforms= count=$#
    while [ $# -gt 0 ]; do
        case $1 in
        --platform=?* | --host=?*) take_platform "${1%%=*}" "${1#*=}" "${2-}" ;;
        --*=* | -p=* | --workspace | --ids | --null | --all-features | --no-default-features | --tests)
            platforms=$platforms$(quote "$1")
            ;;
        -p | --?*)
            [ $# -gt 1 ] || break
            case $1,$2 in
            --platform,?* | --host,?*) take_platform "$1" "$2" "${3-}" ;;
            *) platforms=$platforms$(quote "$1" "$2") ;;
            esac
            shift
            ;;
        *) break ;;
        esac
        shift
    done
    count=$((count - $#))
}
