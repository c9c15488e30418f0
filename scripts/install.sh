#!/bin/sh
# Installs what `make lib hub` built, or takes it away again. PREFIX is the folder below which all stands (default /usr/local), DESTDIR a folder that
# stands for the root of another system; with PROCESSOR what was built for that one.
#   install.sh install | uninstall
set -eu
cd "$(dirname "$0")/.."
PREFIX=${PREFIX:-/usr/local} DESTDIR=${DESTDIR:-}
version=$(cat VERSION)

fail() {
    echo "${command:-install}: $*" >&2
    exit 1
}

command=${1:-}
case $#:$command in
1:install | 1:uninstall) ;;
*) echo 'usage: install.sh install | uninstall' >&2; exit 2 ;;
esac
case $PREFIX in /*) ;; *) fail "PREFIX is an absolute path, not '$PREFIX'" ;; esac
case $DESTDIR in '' | /*) ;; *) DESTDIR=$PWD/$DESTDIR ;; esac
below=$DESTDIR${PREFIX%/}

PROCESSOR=${PROCESSOR:-$(uname -m)} built=build
case $PROCESSOR in x86_64 | aarch64) ;; *) fail "PROCESSOR is x86_64 or aarch64, not '$PROCESSOR'" ;; esac
[ "$PROCESSOR" = "$(uname -m)" ] || built=build/$PROCESSOR

# Each file that is installed: its mode, where it comes from, and its place.
files() {
    for header in include/*.h; do echo "644 $header include/wodzerim/${header##*/}"; done
    echo "644 $built/libwodzerim.a lib/libwodzerim.a"
    echo "644 packaging/wodzerim.pc.in lib/pkgconfig/wodzerim.pc"
    echo "755 $built/hub bin/wodzerim-hub"
    echo "644 packaging/wodzerim-hub.1.in share/man/man1/wodzerim-hub.1"
    echo "644 LICENSE share/doc/wodzerim/LICENSE"
    echo "644 NOTICE share/doc/wodzerim/NOTICE"
}

if [ "$command" = uninstall ]; then
    files | while read -r _ _ place; do
        [ -e "$below/$place" ] || continue
        rm -f "$below/$place" || fail "cannot remove $below/$place"
    done
    for folder in include/wodzerim share/doc/wodzerim; do
        [ ! -d "$below/$folder" ] || rmdir "$below/$folder" || fail "$below/$folder holds files that are not of this version"
    done
    echo "uninstalled from $below"
    exit 0
fi

# Nothing is written unless all of it is there and every folder can be written to.
for file in libwodzerim.a hub; do
    [ -f "$built/$file" ] || fail "$built/$file is not there: make lib hub PROCESSOR=$PROCESSOR builds it"
done
files | while read -r _ _ place; do
    folder=$(dirname "$below/$place")
    mkdir -p "$folder" 2>/dev/null && [ -w "$folder" ] || fail "cannot write to $folder: PREFIX and DESTDIR name other folders"
done

escaped=$(printf '%s' "$PREFIX" | sed 's/[&|\\]/\\&/g')
files | while read -r mode source place; do
    case $source in
    *.in) sed -e "s|@PREFIX@|$escaped|" -e "s|@VERSION@|$version|" "$source" ;;
    *) cat "$source" ;;
    esac >"$below/$place.new" && chmod "$mode" "$below/$place.new" && mv "$below/$place.new" "$below/$place" || {
        rm -f "$below/$place.new"
        fail "cannot write $below/$place"
    }
done
echo "Wodzerim $version is installed in $below"
