#!/bin/sh
# compare/run.sh [COUNT [SEED]]           the self test, then the proved library against the reference
# compare/run.sh selftest [COUNT [SEED]]  the self test alone: the reference, the generator and the harness, with gcc
# compare/run.sh proved [COUNT [SEED]]    the comparison with the proved library alone
# compare/run.sh bench                    times of the proved library against the reference
# compare/run.sh stack [COUNT]            how much stack the proved calls take
# compare/run.sh selfbench                the bench with the reference in both places
# compare/run.sh verilog [COUNT [SEED]]   the reference against Icarus Verilog
#
# The proved library is target/staticlib/libplacement.a, which is x86-64 only; scripts/c-program links and runs what uses it.
# Where something is missing a line begins with `skipped:`, and nothing is claimed. COMPARE_BUILD names another folder than target/compare for what is built.
set -eu
root=$(cd "$(dirname "$0")/.." && pwd)
cd "$root"
build=${COMPARE_BUILD:-target/compare}
archive=target/staticlib/libplacement.a
mkdir -p "$build"

skip() { echo "skipped: $1"; exit 0; }

# native NAME FLAGS FILE..: builds with the system's gcc.
native() {
    name=$1 flags=$2
    shift 2
    # shellcheck disable=SC2086 # the flags are words
    gcc -std=c11 -g -Wall -Wextra $flags "$@" -o "$build/$name"
}

has_gcc() { command -v gcc >/dev/null; }

self_test() {
    has_gcc || skip "the self test, no gcc"
    sanitize='-fsanitize=address,undefined -fno-sanitize-recover=all'
    echo 'int main(void){return 0;}' >"$build/empty.c"
    # shellcheck disable=SC2086
    if ! gcc $sanitize "$build/empty.c" -o "$build/empty" 2>/dev/null || ! "$build/empty" 2>/dev/null; then
        echo "skipped: sanitizers, which this gcc lacks"
        sanitize=
    fi
    native selftest "-O1 $sanitize" compare/selftest.c compare/harness.c compare/generate.c compare/reference.c
    "$build/selftest" "$@"
}

# with_archive PROGRAM [WORD..]: builds compare/PROGRAM.c with the proved library and runs it.
with_archive() {
    program=$1
    shift
    [ -f "$archive" ] || skip "$program with the proved library, no $archive (run scripts/library)"
    command -v rt >/dev/null || skip "$program with the proved library, no kit"
    has_gcc || skip "$program with the proved library, no C headers (they are found through gcc)"
    C_FLAGS="-std=gnu11 -Icompare" scripts/c-program "compare/$program.c" \
        compare/proved.c compare/harness.c compare/generate.c compare/reference.c -- "$@"
}

verilog() {
    command -v python3 >/dev/null || skip "Icarus Verilog, no python3"
    has_gcc || skip "Icarus Verilog, no gcc"
    native examples -O2 compare/examples.c compare/generate.c compare/reference.c
    "$build/examples" "$@" >"$build/examples.txt"
    python3 compare/verilog.py "$build/examples.txt"
}

case ${1:-} in
selftest) shift; self_test "$@" ;;
proved) shift; with_archive compare "$@" ;;
bench) with_archive bench ;;
stack) shift; with_archive stack "$@" ;;
selfbench)
    has_gcc || skip "the bench, no gcc"
    native selfbench -O2 compare/bench.c compare/standin.c compare/harness.c compare/generate.c compare/reference.c
    "$build/selfbench"
    ;;
verilog) shift; verilog "$@" ;;
'' | [0-9]*) (self_test "$@"); with_archive compare "$@" ;;
*) sed -n '2,8s/^# //p' "$0" >&2; exit 2 ;;
esac
