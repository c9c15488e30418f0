#!/bin/sh
# Holds every place that has the version to the file VERSION: the headers, the Rust crate and the newest heading of CHANGELOG.md. The pkg-config file
# and the man page are made from VERSION.
set -eu
cd "$(dirname "$0")/.."
version=$(cat VERSION)

wrong=$(
    echo "$version" | grep -Eqx '[0-9]+\.[0-9]+\.[0-9]+' || echo "VERSION is '$version', and not three numbers"
    IFS=. read -r major minor patch <VERSION || :
    macros=0
    for header in include/*.h; do
        # shellcheck disable=SC2013
        for name in $(sed -n 's/^#define \([A-Z0-9_]*_VERSION\) .*/\1/p' "$header"); do
            macros=$((macros + 1))
            for line in "$name \"$version\"" "${name}_MAJOR $major" "${name}_MINOR $minor" "${name}_PATCH $patch"; do
                grep -q "^#define $line\$" "$header" || echo "$header has no line '#define $line'"
            done
        done
    done
    [ "$macros" -gt 0 ] || echo 'no header of include/ has the version'
    [ "$(sed -n 's/^version = "\(.*\)"$/\1/p' rust/Cargo.toml 2>/dev/null | head -n 1)" = "$version" ] || echo "rust/Cargo.toml has another version than $version"
    [ "$(sed -n 's/^## \([^ ]*\).*/\1/p' CHANGELOG.md 2>/dev/null | head -n 1)" = "$version" ] || echo "the newest heading of CHANGELOG.md is not '## $version'"
)
[ -z "$wrong" ] || { echo "$wrong" >&2; exit 1; }
echo "version $version everywhere"
