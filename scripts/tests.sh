# Read by guppy-cargo, and by cargo-guppy where it is installed, after since.sh: tests the members that changes affect.

# Prints lines that sort the words behind `test`, as sort_words does: asked, those of affected, with, the command that tests,
# and given, what stands behind --.
sort_tests() {
    at=0 kind=
    for word do
        at=$((at + 1))
        case $kind,$word in
        given,*) echo "given \"\${$at}\"" ;;
        with,*)
            echo "with \"\${$at}\""
            kind=
            ;;
        ,--) kind=given ;;
        ,--with) kind=with ;;
        ,--null | ,--format | ,--format=*) refuse "test takes no ${word%%=*}" ;;
        ,--with=*) echo "with \"\${$at#*=}\"" ;;
        *) echo "asked \"\${$at}\"" ;;
        esac
    done
    [ "$kind" != with ] || refuse "--with needs a value"
}

# Sets command to what tests, cargo itself where it is empty.
take_command() {
    [ $# -le 1 ] || refuse "--with is given twice"
    command=${1-}
    case $command,$# in *[!\ ]*,1 | ,0) ;; *) refuse "--with needs a value" ;; esac
}

# Sets options to those that the words have for cargo, with the features that affected asks about.
take_cargo_options() {
    sorted=$(sort_words affected "$@") || exit
    set -- affected "$@"
    features=$(eval "quote $(of_kind features)")
    options=${features:---all-features }$(eval "quote $(of_kind manifest) $(of_kind others | sed "s/--filter-platform=[^ ]* *//g")")
}

# Ends as the tests of these members do: the first word is what they are called, and the others are the command's own.
run_tests() {
    packages=$(printf '%s\n' "$1" | LC_ALL=C sed "s/'/'\\\\''/g; s/.*/'--package=&'/" | tr '\n' ' ')
    shift
    eval "set -- $packages $options \"\$@\""
    if [ -z "$command" ]; then
        find_cargo "cargo is not on the path"
        exec "$cargo" test "$@"
    fi
    set -f
    exec $command "$@"
}

# Tests the members that changes affect, as the words say, with the features that affected asks about.
test_affected() {
    ! asks_for_help test "$@" || answer affected --help
    sorted=$(sort_tests "$@") || exit
    asked=$(of_kind asked) given=$(of_kind given)
    eval "take_command $(of_kind with)"
    eval "take_cargo_options $asked"
    members=$(eval "answer affected $asked") || exit
    [ -n "$members" ] || {
        echo "$name: no member is affected, so there is nothing to test" >&2
        exit 0
    }
    eval "run_tests \"\$members\" $given"
}

# Ends as what the words ask does.
ask() {
    [ "${1-}" = test ] || answer "$@"
    shift
    test_affected "$@"
}
