# Sourced by the scripts that build. Each says first what it is called in messages: me=NAME. It gives them the processor to build for and what rt is
# told of it, a folder to work in that is gone at the end, and rt in a crate's folder, with a line for each crate that it proves. The kit is the one that
# README.md names, by its line `rt version`; it runs on x86-64, and compiles for aarch64 too.

RT=${RT:-rt}
machine=$(uname -m)
PROCESSOR=${PROCESSOR:-$machine}

fail() {
    echo "$me: $*" >&2
    exit 1
}

# For the first processor of each kind, so that what is built runs on every one.
case $PROCESSOR in
x86_64) target='--target=x86_64-unknown-linux-gnu --cpu=x86-64' ;;
aarch64) target='--target=aarch64-unknown-linux-gnu --cpu=generic' ;;
*) fail "PROCESSOR is x86_64 or aarch64, not '$PROCESSOR'" ;;
esac

rt_file=$(command -v "$RT") || fail "the Rattle toolchain's command '$RT' is not on the path; RT=/path/to/rt names it"
case $rt_file in /*) ;; *) rt_file=$PWD/$rt_file ;; esac

# What is built for this machine stands in build/, and for another one in build/PROCESSOR.
out=$PWD/build
[ "$PROCESSOR" = "$machine" ] || out=$out/$PROCESSOR

# All is made in a folder of its own and moved to its place at the end, so that a failure leaves nothing half-written.
mkdir -p "$out" 2>/dev/null || fail "cannot write to $PWD: $out is made there"
work=$(mktemp -d "$PWD/build/.work.XXXXXX") || fail "cannot write to $PWD/build"
trap 'rm -rf "$work"; rmdir "$out" 2>/dev/null || :' EXIT
trap 'exit 1' HUP INT TERM

# Prints the crate whose functions are exported.
exporting_crate() {
    found=$(sed -n 's/^\([a-z0-9_]*\) *staticlib *:.*/\1/p' crates.txt)
    case $found in
    '' | *[!a-z0-9_]*) fail "crates.txt has one static library, not these:" $found ;;
    esac
    echo "$found"
}

# Runs rt in a crate's folder and answers its status. build/$me.txt has all that it says.
rt_in() { # CRATE WORD..
    crate=$1
    shift
    { status=0; (cd "crates/$crate" && "$rt_file" "$@" 2>&1) || status=$?; echo $status >"$work/status"; } | sh scripts/progress.sh "build/$me.txt"
    return "$(cat "$work/status")"
}

# Fails unless a file, or the first member of an archive, is machine code for the processor that was asked for: ELF's field e_machine says it.
check_processor() { # FILE
    at=$(LC_ALL=C grep -abo "$(printf '\177ELF')" "$1" | head -n 1 | cut -d: -f1)
    case $(od -An -tx1 -j$((${at:-0} + 18)) -N2 "$1" | tr -d ' ') in
    3e00) found=x86_64 ;;
    b700) found=aarch64 ;;
    *) found='another processor' ;;
    esac
    [ "$found" = "$PROCESSOR" ] || fail "${1##*/} is for $found, not for $PROCESSOR"
}
