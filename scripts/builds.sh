# Read by guppy-cargo, and by cargo-guppy where it is installed, after since.sh: what the program is told where it is asked
# what cargo builds.

# Whether the command asks that.
is_of_builds() {
    case $1 in built | features | why-feature) return 0 ;; esac
    return 1
}

# Whether that is asked, and no word names the platform that cargo builds for.
needs_platform() {
    is_of_builds "${1-}" && ! asks_for_help "$@" && [ -z "$(of_kind named)$(of_kind 'asked --platform')" ]
}

# Adds to platforms the words that name this host as both platforms, or the one on which rustc runs where none is named.
# With one platform, cargo gives the same flags for both.
take_host_as_platform() {
    case $sorted in *"asked --host-cfgs"*) refuse "give --platform TRIPLE beside --host-cfgs FILE" ;; esac
    need_rustc --platform --cfgs "${1:-TRIPLE}"
    host=${1:-$("$RUSTC" -vV < /dev/null | sed -n 's/^host: //p')}
    [ -n "$host" ] || fail "rustc does not say on which platform it runs: give that by --platform TRIPLE"
    take_asked --platform --cfgs print_cfgs "$host"
    platforms=$platforms$(quote --host "$host" --host-cfgs "/dev/fd/$((next - 1))")
}

# Prints the platforms that cargo builds for here by its settings, a line each, and nothing where these name none. That takes
# an option of cargo's that isn't stable.
print_built_for() {
    [ -n "${asks_cargo-}" ] || return 0
    RUSTC_BOOTSTRAP=1 "${CARGO:-cargo}" -Z unstable-options config get build.target --format json-value \
        < /dev/null 2> /dev/null | LC_ALL=C tr -d '[]" ' | tr , '\n'
}

# Adds to platforms the words that name each of these, and those of the host, which is told apart where cargo is told for
# which platforms to build.
take_built_for() {
    for platform do
        case $platform in
        host-tuple)
            need_rustc --platform --cfgs "$platform"
            take_platforms "$("$RUSTC" -vV < /dev/null | sed -n 's/^host: //p')"
            ;;
        *) take_platforms "$platform" ;;
        esac
    done
}

# Adds to platforms the words that name the platforms that cargo builds for where no word does: those of its settings or
# else the host, which is this one or, where none is named, the one on which rustc runs.
take_own_platforms() {
    built_for=$(print_built_for)
    if [ -z "$built_for" ]; then
        take_host_as_platform "$@"
        return
    fi
    names_host || take_own_host TRIPLE
    take_hosts "$@"
    take_built_for $built_for
}

# Sets resolver to the word that tells the program which resolver the workspace's manifest names, where no other does.
take_resolver() {
    resolver=
    [ -z "$(of_kind 'asked --resolver')" ] || return 0
    [ -z "$metadata" ] || refuse "give --resolver N beside --metadata FILE: metadata don't say by which cargo resolves features"
    take_root
    resolver=--resolver=$(print_resolver < "$root/Cargo.toml") || fail "$root/Cargo.toml can't be read"
}

# Prints the resolver that the manifest of a workspace's root names, or the one that goes with the edition of its package,
# and the first where there is none. Of the lines, those are looked at that begin a table or give a key its value.
print_resolver() {
    LC_ALL=C awk '
        function key_of(text) {
            gsub(/[][ \t"\047]/, "", text)
            sub(/^project(\.|$)/, "package.", text)
            sub(/\.$/, "", text)
            return text
        }
        { sub(/\r$/, "") }
        /^[ \t]*\[\[?[^][]*\]\]?[ \t]*(#.*)?$/ {
            sub(/#.*/, "")
            table = key_of($0) "."
            has[table] = 1
            next
        }
        /^[ \t]*[A-Za-z"\047][A-Za-z0-9_."\047 \t-]*=/ {
            key = key_of(table substr($0, 1, index($0, "=") - 1))
            if (key ~ /^package\./) has["package."] = 1
            value = substr($0, index($0, "=") + 1)
            if (key == "package.edition" && value ~ /^[ \t]*{[^#]*workspace/) key = "package.edition.workspace"
            if (match(value, /^[ \t]*["\047][^"\047]*/)) {
                value = substr(value, 1, RLENGTH)
                gsub(/[ \t"\047]/, "", value)
            }
            values[key] = value
        }
        END {
            if (!("package." in has)) edition = "none"
            else if ("package.edition.workspace" in values) edition = values["workspace.package.edition"]
            else edition = values["package.edition"]
            if ("workspace.resolver" in values) print values["workspace.resolver"]
            else if ("package.resolver" in values) print values["package.resolver"]
            else print edition == "none" || edition < "2021" ? 1 : edition < "2024" ? 2 : 3
        }'
}
