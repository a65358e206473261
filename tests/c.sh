#!/usr/bin/env bash
# The static library from C: tests/c/calls.c and README.md's own C program are compiled against include/yaxopetzo.h, linked with the archive
# of `tools/archive`, and run; the header alone is also compiled as C++. It catches a header that does not fit the archive (a struct's
# layout, an argument's place, a missing call), an answer that is not the paper's, and a README that does not work as it stands.
set -u
cd "$(dirname "$0")/.." || exit 2
status=0
work=$(mktemp -d)
trap 'rm -rf "$work"' EXIT
archive=target/staticlib/libradio.a
flags=(-std=c99 -pedantic -Wall -Wextra -Werror -O1 -Iinclude)

command -v cc >/dev/null || apt-get install -y gcc libc6-dev >/dev/null 2>&1 || { echo "no C compiler, and Debian's cannot be installed"; exit 1; }
tools/archive >"$work/log" 2>&1 || { tail -n 3 "$work/log"; echo "the calls for C are not proved, or their archive is not built"; exit 1; }

# Every call of the header is in the archive, and the archive has no other.
sed -n 's/.*\b\(yaxo_[a-z_]*\)(.*/\1/p' include/yaxopetzo.h | sort -u >"$work/told"
sed -n 's/^pub extern "C" fn \(yaxo_[a-z_]*\)(.*/\1/p' crates/radio/src/*.rt | sort -u >"$work/there"
diff "$work/told" "$work/there" || { echo "the header's calls are not the library's"; status=1; }

# The archive is for x86-64, as are the kit and the machine that it runs on.
build() { # SOURCE PROGRAM
  cc "${flags[@]}" "$1" "$archive" -o "$2"
}

build tests/c/calls.c "$work/calls" && "$work/calls" || { echo "tests/c/calls.c does not hold"; status=1; }

# README.md's C program: its one block of C, which ends with status 0 where it got its payload back.
sed -n '/^## Use it from C$/,/^## Where/p' README.md | sed -n '/^```c$/,/^```$/p' | sed '/^```/d' >"$work/readme.c"
[ -s "$work/readme.c" ] || { echo "README.md has no C program under 'Use it from C'"; status=1; }
build "$work/readme.c" "$work/readme" && "$work/readme" >/dev/null || { echo "README.md's C program does not work as it stands"; status=1; }

if command -v c++ >/dev/null; then
  echo '#include "yaxopetzo.h"' >"$work/alone.cpp"
  c++ -std=c++11 -pedantic -Wall -Wextra -Werror -Iinclude -fsyntax-only "$work/alone.cpp" || { echo "the header is no C++"; status=1; }
fi
exit $status
