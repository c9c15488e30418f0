#!/bin/sh
# Checks the headers: each compiles alone as C11, C++11 and C++17 without a warning; of every function an ignored answer is refused; a record with
# another layout than the library's is refused; and the version is the same in numbers and in text. CC and CXX may name the compilers.
set -eu
cd "$(dirname "$0")"
CC=${CC:-cc}
CXX=${CXX:-c++}
header=aegis128l.h

failed() {
    echo "headers: $1" >&2
    exit 1
}

# A compiler that is missing: an error under CI, a note elsewhere.
for compiler in "$CC" "$CXX"; do
    command -v "$compiler" >/dev/null && continue
    [ "${CI:-}" != true ] || failed "the compiler '$compiler' is not on the path; under CI that is an error"
    echo "headers: not checked: the compiler '$compiler' is not on the path (CC and CXX name the compilers)" >&2
    exit 0
done
work=$(mktemp -d)
trap 'rm -rf "$work"' EXIT

compile() { # STANDARD FILE FLAG..: without a warning; what the compiler says is kept in $work/said
    standard=$1 file=$2
    shift 2
    case $standard in
    c++*) "$CXX" -x c++ "-std=$standard" -Wall -Wextra -Wpedantic -Werror -I . "$@" -c -o "$work/object" "$file" ;;
    *) "$CC" -x c "-std=$standard" -Wall -Wextra -Wpedantic -Werror -I . "$@" -c -o "$work/object" "$file" ;;
    esac >"$work/said" 2>&1
}

# Each prototype of the header as a function with the same arguments, which calls it and ignores its answer: one file a function.
sed 's,/\*.*\*/,,; /\/\*/,/\*\//d; /^#/d' "$header" | awk -v RS=';' -v work="$work" -v header="$header" '
    match($0, /aegis128l_[a-z_]+\(/) {
        name = substr($0, RSTART, RLENGTH - 1)
        arguments = substr($0, RSTART + RLENGTH)
        sub(/\)[^)]*$/, "", arguments)
        gsub(/[ \n]+/, " ", arguments)
        count = split(arguments, argument, /, */)
        names = ""
        for (i = 1; i <= count; i++) {
            gsub(/.*[ *]/, "", argument[i])
            names = names (i > 1 ? ", " : "") argument[i]
        }
        file = work "/" name ".ignored"
        print "#include \"" header "\"\nvoid ignores(" arguments ");\nvoid ignores(" arguments ")\n{\n    " name "(" names ");\n}" >file
        close(file)
    }'
functions=$(find "$work" -name '*.ignored' | wc -l)
[ "$functions" -gt 0 ] || failed "no function was found in $header"

# Wrong layouts: a mark of one byte, two fields of one size in another order, a smaller record.
sed 's/size_t mark;/uint8_t mark;/' "$header" >"$work/mark.h"
sed 's/size_t room;/size_t other;/; s/size_t written;/size_t room;/; s/size_t other;/size_t written;/' "$header" >"$work/order.h"
sed 's/uint8_t buf\[32\];/uint8_t buf[16];/' "$header" >"$work/buffer.h"

for standard in c11 c++11 c++17; do
    for alone in *.h; do
        printf '#include "%s"\nextern int declared; /* a C file must declare something */\n' "$alone" >"$work/alone"
        compile "$standard" "$work/alone" || { cat "$work/said" >&2; failed "$alone alone is not clean as $standard"; }
    done
    for file in "$work"/*.ignored; do
        name=$(basename "$file" .ignored)
        compile "$standard" "$file" -Wno-unused-result || { cat "$work/said" >&2; failed "a call of $name does not compile as $standard"; }
        ! compile "$standard" "$file" -Werror=unused-result || failed "$name: its answer can be ignored as $standard"
    done
    for wrong in mark order buffer; do
        ! cmp -s "$header" "$work/$wrong.h" || failed "the wrong layout '$wrong' is $header itself: the edit above finds nothing to change"
        echo "#include \"$work/$wrong.h\"" >"$work/alone"
        ! compile "$standard" "$work/alone" || failed "a record with another layout ($wrong) is taken as $standard"
        grep -q 'the library' "$work/said" || { cat "$work/said" >&2; failed "the layout '$wrong' is refused for another reason as $standard"; }
    done
done

number() { sed -n "s/^#define AEGIS128L_VERSION_$1 //p" "$header"; }
numbers=$(number MAJOR).$(number MINOR).$(number PATCH)
text=$(sed -n 's/^#define AEGIS128L_VERSION "\(.*\)"$/\1/p' "$header")
[ "$numbers" = "$text" ] || failed "$header has the version $numbers in numbers and '$text' in text"

echo "headers: clean alone as C11, C++11 and C++17; $functions functions, whose answers cannot be ignored; version $text"
