#!/bin/sh
# Proves the library, writes its archive, compiles lint_file.c over it and runs it: with arguments, on those; with none, on
# the server certificate that deckpack is tried with, whose findings must be those of the file `expected`.
#
# Needs the kit (rt) and a C compiler for x86-64 Linux with its C library: CC names it, else it is cc.
set -eu
here=$(pwd)
cd "$(dirname "$0")/../.."
compiler=${CC:-cc}
case $($compiler -dumpmachine) in
    x86_64*) ;;
    *)
        echo "run.sh: the archive is for x86-64, and $compiler compiles for another machine; CC can name a compiler" >&2
        exit 2
        ;;
esac
tools/archive
mkdir -p target/c
$compiler -std=c99 -pedantic -Wall -Wextra -Werror -O2 -I include examples/c/lint_file.c target/staticlib/libexport.a \
    -o target/c/lint_file
program=$(pwd)/target/c/lint_file
lint_file() {
    "$program" "$@"
}
if [ $# -gt 0 ]; then
    cd "$here"
    lint_file "$@"
    exit
fi
status=0
lint_file 1 crates/deckpack/data/server.der crates/deckpack/data/authority.der >target/c/printed || status=$?
if [ "$status" -ne 1 ] || ! cmp target/c/printed examples/c/expected; then
    echo "run.sh: FAILED, status $status; target/c/printed has what was printed" >&2
    exit 1
fi
cat target/c/printed
echo "run.sh: ok"
