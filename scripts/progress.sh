#!/bin/sh
# Shows the work of rt, which it reads, while it is done: a line for each crate that is proved, with the time since the start and, where it is told how
# many there are, how many are left. Where a crate is not proved it shows what was said of it. The file that is named keeps all that is said.
#   rt ci 2>&1 | progress.sh FILE [HOW-MANY]
set -u
case $#:${2:-0} in
1:0) ;;
2:*[!0-9]*) echo 'usage: progress.sh FILE [HOW-MANY]' >&2; exit 2 ;;
2:*) ;;
*) echo 'usage: progress.sh FILE [HOW-MANY]' >&2; exit 2 ;;
esac
file=$1 left=${2:-} began=$(date +%s)
# The line that is read, the first one said of the crate that is at work, that crate, and whether rt ci tells of it in a block.
at=0 from=1 crate='' block=no
: >"$file" || exit 1

tell() { # TEXT
    passed=$(($(date +%s) - began))
    printf '  %s (%d:%02d)\n' "$1" $((passed / 60)) $((passed % 60))
}

ended() { # TEXT
    [ -z "$left" ] || left=$((left - 1))
    tell "$1${left:+, $left left}"
    from=$((at + 1)) block=no
}

while IFS= read -r line; do
    printf '%s\n' "$line" >>"$file"
    at=$((at + 1))
    case $line in
    '== '*)
        crate=${line#== }
        crate=${crate%%:*} from=$at block=yes
        continue
        ;;
    "rt: $crate proved") ended "$crate proved" ;;
    "rt: $crate: its tests are proved")
        tell "$crate: its tests are proved"
        from=$((at + 1)) block=no
        ;;
    "rt: $crate: its tests are NOT PROVED")
        sed -n "$from,${at}p" "$file"
        from=$((at + 1)) block=no
        ;;
    'rt: '*' NOT PROVED'*)
        sed -n "$from,${at}p" "$file"
        ended "${line#rt: }"
        ;;
    'rt: '*' is kept: '*)
        line=${line#rt: }
        ended "${line%% is kept:*} was proved before and is unchanged"
        ;;
    'rt: must-fail '*': refused, as it must be'*) ;;
    'rt: '*': begins with what a check kept in '* | 'rt: chose --jobs '* | 'rt: rt '* | 'rt: running '*) ;;
    'rt: '*) [ "$block" = yes ] || tell "${line#rt: }" ;;
    # of rt lib and rt run, which tell of one crate after another
    'crate '*': modules loaded='*)
        crate=${line#crate }
        crate=${crate%%:*}
        ;;
    'logic=proved '*) [ "$block" = yes ] || ended "$crate proved" ;;
    'logic=not-proved'*)
        [ "$block" = yes ] || {
            sed -n "$from,${at}p" "$file"
            ended "$crate NOT PROVED"
        }
        ;;
    esac
done
