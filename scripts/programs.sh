# Read by guppy-run, guppy-cargo, prove and install. Before it is read, here is the repository's folder, and name what
# stands before each message.
. "$here/scripts/start.sh"

# Ends with status 3: nothing was run.
fail() {
    printf '%s\n' "$name: $1" >&2
    exit 3
}

# Ends with status 4: the program ran unproved, and a part of an answer is none.
give_up() {
    echo "$name: no answer without a proof: $1; '$here/prove' proves the program, which then has no such limit" >&2
    exit 4
}

# Has the function clean called at the end, also where a signal ends the script.
clean_at_the_end() {
    trap clean EXIT
    trap 'exit 129' HUP
    trap 'exit 130' INT
    trap 'exit 143' TERM
}

# The crates of this repository that these stand on, lowest first, and then these themselves.
up_to() {
    awk -F: -v tops="$*" '
        function visit(crate, at, count, below) {
            if (!(crate in uses) || crate in seen) return
            seen[crate] = 1
            count = split(uses[crate], below, " ")
            for (at = 1; at <= count; at++) visit(below[at])
            print crate
        }
        { uses[$1] = $2 }
        END {
            count = split(tops, top, " ")
            for (at = 1; at <= count; at++) visit(top[at])
        }' "$here/crates.txt"
}

# A checksum of standard input.
checksum() {
    sha256sum | cut -c 1-64
}

# A checksum of what the program is made of: of its sources, and of what crates.txt says of their crates.
sources_of() (
    crates=$(up_to "$1")
    cd "$here/crates" && {
        awk -F: -v crates=" $(echo $crates) " 'index(crates, " " $1 " ")' "$here/crates.txt"
        find $crates -name out -prune -o -type f \( -name '*.rt' -o -name '*.antt' \) -print0 |
            LC_ALL=C sort -z | xargs -0 sha256sum
    } | checksum
)

# Whether the proved program is there and is made of these sources. The file made-of has their checksum and, in a second
# line, the program's own and the toolchain that proved it, which this leaves in `by`.
is_proved() {
    sources= built= by=
    [ -x "$here/crates/$1/out/$1" ] && { read -r sources && read -r built by; } 2> /dev/null < "$here/crates/$1/out/made-of" &&
        [ "$sources" = "$(sources_of "$1")" ] && [ "$built" = "$(checksum < "$here/crates/$1/out/$1")" ]
}

# Runs the program: the proved one, or else the same one unproved.
run_program() {
    top=$1
    shift
    ! is_proved "$top" || start "$here/crates/$top/out/$top" "$@"
    try_program "$@"
}

# rt takes so many bytes of input and no more, and ends a program that takes so many seconds.
most_bytes=67108863
most_seconds=600

# Runs the program unproved, by `rt try`, which checks it as it runs. It is given all of standard input in a file, since
# rt would take what a pipe gives within two seconds for the whole.
try_program() {
    first=${1-}
    command -v rt > /dev/null ||
        fail "the program is not proved on this machine yet, and the toolchain's rt is not on the path"
    echo "$name: this answer takes a minute, and comes from a program that is not proved on this machine yet; '$here/prove' proves it" >&2
    room= is_over=
    clean() {
        if [ -n "$!" ] && [ -z "$is_over" ]; then
            kill "$!" 2> /dev/null
            wait "$!" 2> /dev/null
        fi
        rm -rf "$room"
    }
    clean_at_the_end
    room=$(mktemp -d) || fail "no temporary folder can be made"
    cat > "$room/input" 2> /dev/null || fail "standard input can't be read"
    [ "$(wc -c < "$room/input")" -le "$most_bytes" ] || give_up "the input has more than $most_bytes bytes"
    words=$(hand_files "$@" | tr '\n' ' ')
    files=$(ls "$room" | sed -n 's,^paths.*,--data &="$room/&",p' | tr '\n' ' ')
    eval "set -- $files -- $words"
    cd "$here/crates/$top" || fail "there is no folder crates/$top"
    rt try --seconds "$most_seconds" "$@" < "$room/input" > "$room/answer" 2> "$room/told" &
    wait "$!"
    status=$?
    is_over=1
    tell_answer
}

# Prints each word in a line, the second as "${2}", for which the shell puts that word. The program opens only what rt is
# told to hand it: each file behind --paths-from, --before, --cfgs or --host-cfgs gets a copy, and its word is the name of that.
hand_files() {
    at=0 is_file=
    for word do
        at=$((at + 1)) option=
        case $word in --paths-from=* | --before=* | --cfgs=* | --host-cfgs=*) option=${word%%=*}= is_file=1 ;; esac
        if [ -n "$is_file" ] && cp -- "${word#"$option"}" "$room/paths$at" 2> /dev/null; then
            echo "${option}paths$at"
        else
            echo "\"\${$at}\""
        fi
        is_file=
        case $word in --paths-from | --before | --cfgs | --host-cfgs) is_file=1 ;; esac
    done
}

# Prints what the program printed, and ends with its status, or says why there is no answer. rt's status is the
# program's own where its last line says that it ended.
tell_answer() {
    case "$status $(tail -n 1 "$room/told")" in
    0\ * | *" run=ended status=$status "*)
        # The last two lines are rt's.
        sed '$d' "$room/told" | sed '$d' >&2
        case $first in
        # The text says "proved", which the program is only where `rt try` doesn't run it.
        --version | -V) sed 's/, proved$/, not proved on this machine yet/' "$room/answer" ;;
        *) cat "$room/answer" ;;
        esac 2> /dev/null || {
            echo "error: output failed" >&2
            status=2
        }
        exit "$status"
        ;;
    "6 run=no-answer "*) give_up "$(sed -n 's/^checked: no-answer: //p' "$room/told")" ;;
    esac
    fail "crates/$top can't be run unproved: $(grep -m 1 error "$room/told" || sed '$d' "$room/told" | tail -n 1)"
}
