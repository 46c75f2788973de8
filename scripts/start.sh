# Read by programs.sh, and by what is installed, cargo-guppy and guppy-run.

# Becomes this program, which gets its memory in huge pages where Linux hands them out to who asks: with small ones,
# each entered into the system's tables when it is touched first, it takes up to half as long again. guppy-cargo has all
# its memory from one heap, which grows by a huge page at a time and gives nothing back before the end.
start() {
    memory=glibc.malloc.hugetlb=1
    case ${1##*/} in
    guppy_cargo_main | guppy-cargo)
        memory=$memory:glibc.malloc.top_pad=2097152
        memory=$memory:glibc.malloc.mmap_threshold=1073741824:glibc.malloc.trim_threshold=4294967296
        ;;
    esac
    export GLIBC_TUNABLES="${GLIBC_TUNABLES-$memory}"
    exec "$@"
}
