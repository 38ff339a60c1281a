#!/usr/bin/env bash
# Installs into a temporary folder, and uses what is there as somebody else would: a program outside the repository built with pkg-config, as
# C and as C++; the programs; the manual pages. The last line is 'N passed, M failed'.
set -u
cd "$(dirname "$0")/.." || exit 2
here=$(mktemp -d)
trap 'rm -rf "$here"' EXIT
prefix=$here/prefix
passed=0 failed=0

holds() { # NAME COMMAND..
    local name=$1
    shift
    if "$@" >"$here/said" 2>&1; then
        passed=$((passed + 1))
        echo "ok: $name"
    else
        failed=$((failed + 1))
        echo "FAILED: $name"
        cat "$here/said"
    fi
}

# Files below a folder, by name.
below() { (cd "$1" && find . -type f | sort); }

expected='./bin/radvoinis-draw
./bin/radvoinis-histories
./bin/radvoinis-listing
./include/radvoinis.h
./lib/libradvoinis.a
./lib/pkgconfig/radvoinis.pc
./share/man/man1/radvoinis-draw.1
./share/man/man1/radvoinis-histories.1
./share/man/man1/radvoinis-listing.1
./share/man/man3/radvoinis.3'
just_these() { [ "$(below "$prefix")" = "$expected" ] || { below "$prefix" && return 1; }; }

# Everything below happens outside the repository, with the installation alone.
mkdir "$here/outside"
cp tests/outside.c tests/stack.c "$here/outside/"
cp examples/ring_after.{record,listing,dot} "$here/outside/"
cp crates/histories/stdout "$here/outside/histories"
export PKG_CONFIG_PATH=$prefix/lib/pkgconfig
build() { # COMPILER..
    (cd "$here/outside" && "$@" -Wall -Wextra -pedantic -Werror outside.c $(pkg-config --cflags --libs radvoinis) -o outside)
}
measured() { (cd "$here/outside" && gcc -std=gnu11 -O2 -Wall -Wextra -Werror stack.c $(pkg-config --cflags --libs radvoinis) -o stack && ./stack); }
runs() { [ "$("$here/outside/outside")" = "$(pkg-config --modversion radvoinis)" ]; }
same() { "$prefix/bin/$1" <"$here/outside/ring_after.record" | cmp - "$here/outside/ring_after.$2"; }
all_small() { "$prefix/bin/radvoinis-histories" | cmp - "$here/outside/histories"; }
foreign() { ! nm -g --defined-only "$prefix/lib/libradvoinis.a" | grep ' [A-Z] ' | grep -v ' T radvoinis_'; }
shared() { gcc -shared -Wl,-z,text -Wl,--whole-archive "$prefix/lib/libradvoinis.a" -Wl,--no-whole-archive -o "$here/library.so"; }
page() { [ -z "$(groff -man -Tutf8 -ww -z "$prefix/share/man/man${1##*.}/$1" 2>&1)" ]; }
staged() { grep -qx 'prefix=/usr' "$here/stage/usr/lib/pkgconfig/radvoinis.pc" && cmp "$here/stage/usr/include/radvoinis.h" include/radvoinis.h; }
nothing_left() { [ -z "$(below "$prefix")" ]; }

holds "make install" make -s install PREFIX="$prefix"
holds "just the files that the README names" just_these
holds "a program outside, as C99" build gcc -std=c99
holds "it runs, and pkg-config knows the header's version" runs
holds "a program outside, as C++" build g++ -x c++ -std=c++11
holds "it runs, as C++" runs
holds "no more stack than the header says" measured
holds "the library's names all begin with radvoinis_" foreign
holds "the library can be part of a shared one" shared
holds "radvoinis-listing" same radvoinis-listing listing
holds "radvoinis-draw" same radvoinis-draw dot
holds "radvoinis-histories" all_small
for name in radvoinis-listing.1 radvoinis-draw.1 radvoinis-histories.1 radvoinis.3; do
    if command -v groff >/dev/null; then holds "manual page $name" page "$name"; fi
done
holds "make install for a package" make -s install PREFIX=/usr DESTDIR="$here/stage"
holds "its files say where they will be" staged
holds "make uninstall" make -s uninstall PREFIX="$prefix"
holds "nothing is left" nothing_left
echo "$passed passed, $failed failed"
[ "$failed" -eq 0 ]
