# What the gate's scripts share. Sourced at the repository's root.
# shellcheck shell=bash

# ---- what the scripts call, and where it comes from where it is missing

# fetch PACKAGE: installs a Debian package, or fails and says why.
updated=no
fetch() {
    echo "installing the Debian package $1"
    command -v apt-get >/dev/null || { echo "there is no apt-get here"; return 1; }
    # Old lists may still do, so a failure here is left for the installation to find.
    [ "$updated" = yes ] || apt-get update -qq || true
    updated=yes
    DEBIAN_FRONTEND=noninteractive apt-get install -y -qq --no-install-recommends "$1" >/dev/null
}

# have COMMAND PACKAGE: whether the command is there. Where it is not, its package is tried first.
have() {
    command -v "$1" >/dev/null || { fetch "$2" && command -v "$1" >/dev/null; }
}

# need COMMAND PACKAGE: the same, and there is no going on without it.
need() {
    have "$1" "$2" || { echo "$1 is missing, and Debian's package $2 could not be installed"; exit 1; }
}

links_fuzzer() {
    echo 'int LLVMFuzzerTestOneInput(const char *d, unsigned long n) { return d == 0 && n > 0; }' |
        clang -fsanitize=fuzzer -x c - -o /dev/null 2>/dev/null
}

# have_fuzzer: whether clang is there with libFuzzer, which Debian has in a package of its own.
have_fuzzer() {
    have clang clang && { links_fuzzer || { fetch libclang-rt-dev && links_fuzzer; }; }
}

# ---- the library

# LINTELKITE_ARCHIVE names an archive that is built already. Cargo's build scripts run in other folders, so it becomes a
# whole path here: OLDPWD is where the caller stood.
if [ -n "${LINTELKITE_ARCHIVE:-}" ]; then
    case $LINTELKITE_ARCHIVE in
        /*) ;;
        *) LINTELKITE_ARCHIVE=$OLDPWD/$LINTELKITE_ARCHIVE ;;
    esac
    export LINTELKITE_ARCHIVE
fi
archive=${LINTELKITE_ARCHIVE:-target/staticlib/liblintelkite.a}

# need_archive: `archive` is the library. Where none is named it is proved and built, if it is not there or crates/ is newer.
need_archive() {
    if [ -z "${LINTELKITE_ARCHIVE:-}" ]; then
        need make make
        make --no-print-directory -s
    elif [ ! -f "$archive" ]; then
        echo "LINTELKITE_ARCHIVE names no file: $archive"
        exit 1
    fi
}

# ---- the examples

strict=(-Wall -Wextra -Wpedantic -Wconversion -Wshadow -Werror)
c99=(-std=c99 "${strict[@]}" -Wstrict-prototypes)
cxx17=(-std=c++17 "${strict[@]}")

# build_examples FOLDER OPTION ..: each example as a program of its name in FOLDER. Options follow the source.
build_examples() {
    local into=$1 source
    shift
    for source in examples/*.c; do
        cc "${c99[@]}" -O2 -g "$source" "$@" -o "$into/$(basename "$source" .c)"
    done
    for source in examples/*.cpp; do
        c++ "${cxx17[@]}" -O2 -g "$source" "$@" -o "$into/$(basename "$source" .cpp)"
    done
}
