#!/bin/sh
# Builds the archive for the other processor too, and holds both to the headers: each exports the functions that are declared and no other, and asks
# nothing of a C library but memcpy and memset.
set -eu
cd "$(dirname "$0")/.."
machine=$(uname -m)
case $machine in x86_64) other=aarch64 ;; *) other=x86_64 ;; esac

fail() {
    echo "archives: $*" >&2
    exit 1
}

command -v nm >/dev/null || {
    [ "${CI:-}" != true ] || fail 'nm is not on the path, and under CI that is an error'
    echo 'archives: nm is not on the path; skipped' >&2
    exit 0
}
PROCESSOR=$other sh scripts/lib.sh

declared=$(grep -hoE '^[a-z].* \*?[a-z0-9_]+\(' include/*.h | grep -oE '[a-z0-9_]+\(' | tr -d '(' | sort)
[ -n "$declared" ] || fail 'include/ declares no function'
for archive in build/libwodzerim.a "build/$other/libwodzerim.a"; do
    exported=$(nm -g --defined-only "$archive" | sed -n 's/.* T //p' | sort)
    [ "$exported" = "$declared" ] || fail "$archive exports other functions than include/ declares: $(printf '%s\n' "$exported" "$declared" | sort | uniq -u | tr '\n' ' ')"
    asked=$(nm -u "$archive" | sed -n 's/.* U //p' | sort -u | tr '\n' ' ')
    [ "$asked" = 'memcpy memset ' ] || fail "$archive asks for: $asked"
done
echo "both archives export the $(echo "$declared" | wc -l) functions that include/ declares, and ask for memcpy and memset alone"
