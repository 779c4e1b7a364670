#!/bin/sh
# Compiles the test and the example against an installed library and nothing else, runs them, and
# checks what the example prints.
#
#   run.sh [PREFIX]      without PREFIX the library is installed into a temporary one first
set -eu
here=$(cd "$(dirname "$0")" && pwd)
work=$(mktemp -d)
trap 'rm -rf "$work"' EXIT
if [ $# -eq 0 ]; then
    "$here/../../install" "$work/prefix"
    prefix=$work/prefix
else
    prefix=$(cd "$1" && pwd)
fi

# As a stranger would: the two files alone, in a folder of their own.
cp "$here/test.c" "$here/example.c" "$work"
cd "$work"
if command -v pkg-config >/dev/null; then
    PKG_CONFIG_PATH=$prefix/lib/pkgconfig
    export PKG_CONFIG_PATH
    flags=$(pkg-config --cflags --libs replica)
else
    flags="-I$prefix/include -L$prefix/lib -lreplica"
fi
compile() { # NAME
    # The flags are words; a prefix has no white space.
    # shellcheck disable=SC2086
    ${CC:-cc} -std=c99 -Wall -Wextra -Wpedantic -Werror -o "$1" "$1.c" $flags
}
compile test
./test
compile example
./example >printed
cat printed
cat >expected <<END
1-2 came
1-3 came
1-3 became 2-3, 1-4 came
1-2 became 4-2, 1-3 came
1-3 became 5-3, 2-4 became 5-4, 1-2 came
1-2 became 6-2, 3-5 became 6-5, 1-3 came
1 3
1 4
2 3
2 6
4 5
5 6
rewired: 1-2 1-6 2-6 3-4 3-5 4-5
4-1 and 2-3 are back
1-3 and 5-6 are back
from 0: 1-2 1-6 2-6 3-4 3-5 4-5
from 2670642822: 1-2 1-6 2-4 3-5 3-6 4-5
CN has 4 vertices
END
if ! cmp -s printed expected; then
    echo "FAILED: other moves, edges or text than expected" >&2
    exit 1
fi
