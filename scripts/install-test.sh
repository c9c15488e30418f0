#!/bin/sh
# Installs to a folder that stands for a system, builds the C examples by pkg-config alone and runs them, runs the hub program, and takes all away
# again: nothing is left.
set -eu
cd "$(dirname "$0")/.."
cc=${CC:-cc}

fail() {
    echo "install-test: $*" >&2
    exit 1
}

for tool in "$cc" pkg-config; do
    command -v "$tool" >/dev/null && continue
    [ "${CI:-}" != true ] || fail "$tool is not on the path, and under CI that is an error"
    echo "install-test: $tool is not on the path; skipped" >&2
    exit 0
done

mkdir -p build
root=$(mktemp -d "$PWD/build/.system.XXXXXX")
trap 'rm -rf "$root"' EXIT
trap 'exit 1' HUP INT TERM
unset PROCESSOR
export DESTDIR="$root/system" PREFIX=/opt/wodzerim
mkdir "$DESTDIR" "$root/programs"
sh scripts/install.sh install

export PKG_CONFIG_SYSROOT_DIR="$DESTDIR" PKG_CONFIG_LIBDIR="$DESTDIR$PREFIX/lib/pkgconfig"
[ "$(pkg-config --modversion wodzerim)" = "$(cat VERSION)" ] || fail 'wodzerim.pc has another version than VERSION'
for source in examples/c/*.c; do
    program=$root/programs/$(basename "$source" .c)
    # The example is copied, so that no header of the repository is beside it.
    cp "$source" "$root/programs/"
    flags=$(pkg-config --cflags --libs wodzerim)
    eval "\"$cc\" -std=c11 -Wall -Wextra -Werror \"$program.c\" $flags -o \"$program\"" || fail "$source does not build over what is installed"
    "$program" >/dev/null || fail "$source failed over what is installed"
done
"$DESTDIR$PREFIX/bin/wodzerim-hub" <examples/record.bin >"$root/reply"
head -n 1 "$root/reply" | grep -qx 'opened 27' || fail 'the installed hub program does not open examples/record.bin'
grep -q "Wodzerim $(cat VERSION)" "$DESTDIR$PREFIX/share/man/man1/wodzerim-hub.1" || fail 'the man page has another version than VERSION'

sh scripts/install.sh uninstall
left=$(find "$DESTDIR" ! -type d; find "$DESTDIR" -type d -name 'wodzerim' ! -path "$DESTDIR$PREFIX")
[ -z "$left" ] || fail "left behind: $left"
echo 'installed, built over, run, and taken away again'
