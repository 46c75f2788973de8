# Read by guppy-cargo, and by cargo-guppy where it is installed, after before.sh: which of the files that changed count by
# what they changed alone, since the metadata of both states show all of that.

# Makes the file left-out, by which sed takes such files out of the paths that changed, and the file added, of paths in the
# place of those of the workspace's root. Called in the workspace's folder as it was, with the words of the program; 3 has
# the metadata as they are now.
leave_out_shown() {
    : > "$state/left-out"
    : > "$state/added"
    case $changed in *"'Cargo.lock' "*) ! add_readers 'Cargo\.lock' || leave_out Cargo.lock ;; esac
    # With fewer features or kinds of dependencies, the metadata don't show all.
    case $features in *--features=* | *--no-default-features*) return ;; esac
    [ -z "$(of_kind 'asked --kinds')" ] || return 0
    print_manifests "$state/metadata" > "$state/manifests"
    print_manifests /dev/fd/3 > "$state/manifests-now"
    eval "printf '%s\\0' $changed" | LC_ALL=C grep -zxE '([A-Za-z0-9/._+-]*/)?Cargo\.toml' | tr '\0' '\n' |
        while read -r path; do
            ! is_shown "$path" "$@" || leave_out "$path"
        done
}

# Adds the commands for sed that take the path out.
leave_out() {
    pattern=$(printf %s "$1" | sed 's/[.]/\\./g')
    printf '%s\n' "s,^'$pattern' ,," "s, '$pattern' , ," >> "$state/left-out"
}

# Prints where the metadata say that manifests of packages are, a line each.
print_manifests() {
    LC_ALL=C grep -oaE '"manifest_path":"([^"\\]|\\.)*"' "$1"
}

# Whether the metadata of both states show all that changed in this manifest, and nothing but cargo looks at it, as far as
# can be seen. For that of the workspace's root, what else may look at it is added.
is_shown() {
    [ -f "$1" ] && [ -f "$root/$1" ] && [ ! -h "$root/$1" ] && ! is_given "$@" &&
        print_rest "$1" > "$state/rest" && print_rest "$root/$1" > "$state/rest-now" &&
        cmp -s "$state/rest" "$state/rest-now" || return
    if [ "$1" = Cargo.toml ]; then
        add_readers 'Cargo\.toml|CARGO_MANIFEST_PATH'
        return
    fi
    is_of_package "$1" && ! has_script "${1%Cargo.toml}" || return
    find_naming 'Cargo\.toml|CARGO_MANIFEST_PATH' "${1%Cargo.toml}*.rs" > "$state/naming"
    [ $? -eq 1 ]
}

# Whether the words behind the file give a folder to a package in which the file is.
is_given() {
    file=$(readlink -f -- "$root/$1") || return 0
    shift
    option=
    for word do
        case $option,$word in
        ,--also)
            option=$word
            continue
            ;;
        --also,*) option= ;;
        ,--also=*) word=${word#*=} ;;
        *) continue ;;
        esac
        place=$(cd "$root/" && readlink -f -- "${word%%=*}") || continue
        case $file in "$place" | "${place%/}"/*) return 0 ;; esac
    done
    return 1
}

# Whether the manifest is one of a package, in both states.
is_of_package() (
    place=$(printf %s "${root%/}" | LC_ALL=C sed -z 's/["\\]/\\&/g; s/\n/\\n/g') path=$1
    while [ "$path" != "${path#../}" ]; do
        place=${place%/*} path=${path#../}
    done
    LC_ALL=C grep -qxF "\"manifest_path\":\"$place/$path\"" "$state/manifests" &&
        LC_ALL=C grep -qxF "\"manifest_path\":\"$place/$path\"" "$state/manifests-now"
)

# Whether the package in this folder of the workspace may have a build script, which may look at each of its files.
has_script() {
    [ -e "$root/${1}build.rs" ] ||
        LC_ALL=C grep -qE "(^|[^A-Za-z0-9_-])build[\"']?[[:blank:]]*=" "$root/${1}Cargo.toml"
}

# Adds what may look at a file of the workspace's root: the build script of the package there, and each source that names
# the file so.
add_readers() {
    ! has_script "" || printf "'build.rs' " >> "$state/added"
    find_naming "$1" ':/*.rs' > "$state/naming"
    [ $? -le 1 ] || return
    LC_ALL=C sed -z -e 's,^-,./-,' -e "s/'/'\\\\''/g; s/.*/'&'/" "$state/naming" | tr '\0' ' ' >> "$state/added"
}

# Prints the sources in the place that name a file so, but in lines of comment, each ended by a NUL. The status is 1 where
# there is none.
find_naming() (
    unset GIT_INDEX_FILE
    cd "$root/" || exit 2
    git -c submodule.recurse=false grep -lzaE --untracked --no-color -e "$1" --and --not -e '^[[:blank:]]*//' -- "$2"
)

# Prints what a manifest says beside that of which the metadata show all: dependencies and patches, by keys that count by
# what they are resolved to. Dependencies for some platforms alone are printed, and so is all of a manifest of which lines
# might be misread, or where such a dependency has the name of another one. Else, lines of comment aren't.
print_rest() {
    if LC_ALL=C grep -qE "\"\"\"|'''|^[^#]*[\"']target[\"']|^[[:blank:]]*target[[:blank:]]*[.=]" "$1"; then
        cat "$1"
        return
    fi
    LC_ALL=C awk '
        # The name at the front of a text.
        function name_of(text) {
            sub(/^[ \t]*["\047]?/, "", text)
            return match(text, /^[A-Za-z0-9_-]+/) ? substr(text, 1, RLENGTH) : ""
        }
        # Of which kind the table is that the header begins: of one dependency or of many, which then has the name, for
        # platforms, or another one.
        function kind_of(header) {
            sub(/#.*/, "", header)
            name = ""
            if (sub(/^[ \t]*\[[ \t]*target[ \t]*[.]/, "", header)) {
                if (!sub(/^.*[.][ \t]*(dev-|build-)?dependencies[ \t]*/, "", header)) is_mixed = 1
                if (sub(/^[.]/, "", header)) name = name_of(header)
                return "platform"
            }
            if (header ~ /^[ \t]*\[ *patch *[].]/) return "many"
            if (!sub(/^[ \t]*\[ *(workspace[.])?(dev-|build-)?dependencies[ \t]*/, "", header)) return ""
            if (sub(/^[.]/, "", header)) name = name_of(header)
            return name != "" ? "one" : header ~ /^\]/ ? "many" : ""
        }
        # Whether the metadata show what the line says, which stands inside of so many brackets and has @ for each text.
        function is_shown(line, inside, is_name, key) {
            is_name = kind == "many" && inside == 0
            while (match(line, /[A-Za-z0-9_@-]+[ \t]*=/)) {
                is_name = is_name && substr(line, 1, RSTART - 1) ~ /^[ \t]*$/
                key = substr(line, RSTART, RLENGTH - 1)
                sub(/[ \t]+$/, "", key)
                line = substr(line, RSTART + RLENGTH)
                if (!(key in known) && (!is_name || key in unknown)) return 0
                is_name = 0
            }
            return line !~ /["\047\\]/
        }
        BEGIN {
            split("version path git branch tag rev registry registry-index workspace features default-features", list, " ")
            for (at in list) known[list[at]] = 1
            split("optional package public artifact lib target @", list, " ")
            for (at in list) unknown[list[at]] = 1
        }
        {
            all[NR] = $0
            line = $0
        }
        /^[ \t]*(#.*)?\r?$/ {
            next
        }
        /^[ \t]*\[/ {
            header = $0
            kind = kind_of(header)
            inside = 0
            if (kind == "one") everywhere[name] = 1
            if (kind == "platform") somewhere[name] = 1
            if (kind == "" || kind == "platform") rest[NR] = $0
            next
        }
        kind == "" || kind == "platform" {
            rest[NR] = $0
            if (kind == "platform") somewhere[name_of($0)] = 1
            next
        }
        {
            gsub(/"[^"\\]*"|\047[^\047]*\047/, "@", line)
            sub(/#.*/, "", line)
            if (kind == "many") everywhere[name_of($0)] = 1
            if (!is_shown(line, inside)) rest[NR] = header ": " $0
            inside += gsub(/[[{]/, "", line) - gsub(/[]}]/, "", line)
        }
        END {
            for (it in somewhere) if (it != "" && it in everywhere) is_mixed = 1
            for (at = 1; at <= NR; at++) if (is_mixed) print all[at]
            else if (at in rest) print rest[at]
        }' "$1"
}
