#!/bin/sh
# Runs the built program at least once for each status that it can be made to end with, and compares its exit status, what it
# prints and its line on standard error with what is wanted. Outside the gate, since the gate runs a program once.
# Usage: statuses.sh    the program is crates/distfuture/out/distfuture, or $DISTFUTURE
set -eu
top=$(cd "$(dirname "$0")/.." && pwd)
program=${DISTFUTURE:-$top/crates/distfuture/out/distfuture}
folder=$(mktemp -d)
trap 'rm -rf "$folder"' EXIT
cd "$folder"
printf 'Package: a\nVersion: 1\nDepends: b\n\nPackage: b\nVersion: 1\nConflicts: c\n\nPackage: c\nVersion: 1\n' >packages
printf 'Package: a\nVersion: 1\nDescription\n' >bad
printf 'a 1\nb 1\n' >both
printf 'a 1\n' >alone
printf 'd 1\n' >unknown
# Four groups of five packages of which each two of a group exclude each other, and one that needs one of each number.
for group in a b c d; do
    for number in 1 2 3 4 5; do printf 'Package: %s%s\nVersion: 1\nProvides: %s\nConflicts: %s\n\n' $group $number $group $group; done
done >hard
printf 'Package: p\nVersion: 1\nDepends: a1 | b1 | c1 | d1, a2 | b2 | c2 | d2, a3 | b3 | c3 | d3, a4 | b4 | c4 | d4, a5 | b5 | c5 | d5\n' >>hard
# A file of one byte more than is read, without its bytes on the disk.
truncate -s 268435457 long
failed=0

# wants STATUS OUT ERR WORDS..
wants() {
    status=$1 out=$2 err=$3
    shift 3
    got=0
    "$program" "$@" >out 2>err || got=$?
    if [ "$got" != "$status" ] || [ "$(cat out)" != "$out" ] || [ "$(cat err)" != "$err" ]; then
        echo "wrong: $* ended with $got, printed '$(cat out)', and told '$(cat err)'"
        failed=1
    fi
}

wants 0 'healthy' '' health packages both
report='report: "strong"
limit: 10000
packages: 3
uninstallable: []
strong:
  - package: "a=1"
    on:
      - "b=1"
impact:
  - package: "b=1"
    of:
      - "a=1"
undecided: []
undecided_pairs: []'
wants 0 "$report" '' strong packages cert
wants 0 "$report" '' check packages cert
wants 0 'size 2
strong 1
uninstallable 0
outdated 0
challenged 0
undecided 0
accepted 3' '' try --size 2 --seed 0
wants 1 'report: "strong"
limit: 1
packages: 21
uninstallable: []
strong: []
impact: []
undecided:
  - "p=1"
undecided_pairs: []' '' strong hard hard-cert --limit 1
sed '$d' cert >cut
wants 0 'package a=1
installable' '' explain packages explained --package a=1
wants 0 'package a=1
installable' '' check-explain packages explained
wants 1 'package p=1
undecided' '' explain hard hard-explained --package p=1 --limit 1
wants 1 'package p=1
undecided' '' check-explain hard hard-explained
wants 0 'package a=1
least 0' '' repair packages repaired --package a=1
wants 0 'package a=1
least 0' '' check-repair packages repaired
sed '$d' explained >cut-explained
sed '$d' repaired >cut-repaired
wants 4 '' "distfuture: certificate refused at line $(($(wc -l <explained))): Truncated" check-explain packages cut-explained
wants 4 '' "distfuture: certificate refused at line $(($(wc -l <repaired))): Truncated" check-repair packages cut-repaired
for command in explain repair; do
    wants 13 '' 'distfuture: no such package' $command packages never --package a=2
    wants 2 '' 'distfuture: bad command line' $command packages never
    wants 5 '' 'distfuture: read fault' $command missing never --package a=1
    wants 6 '' 'distfuture: write fault' $command packages missing/cert --package a=1
done
wants 4 '' "distfuture: certificate refused at line $(($(wc -l <cert))): Truncated" check packages cut
wants 6 '' 'distfuture: write fault' strong packages missing/cert
wants 2 '' 'distfuture: bad command line' check packages cert --essential
wants 2 '' 'distfuture: bad command line' health packages
wants 2 '' 'distfuture: bad command line'
wants 3 '' 'distfuture: bad packages at line 3: NoColon' health bad both
wants 5 '' 'distfuture: read fault' health missing both
wants 5 '' 'distfuture: read fault' health packages missing
wants 8 '' 'distfuture: too large: Bytes' health long both
wants 9 'unmet a=1: b' '' health packages alone
printf 'Package: c\nVersion: 2\n' >later
printf 'Package: c\nVersion: 0\n' >earlier
printf '= removal a\n= upload c 2\nPackage: c\nVersion: 2\n' >journal
printf '= removal a\n= removal a\n' >twice
wants 0 'removal a
removal b
upload c=1 at 2: c' '' steps packages later
wants 12 'not a future at c=0' '' steps packages earlier
wants 0 'steps 2
packages 2' '' follow packages cert journal
wants 4 '' "distfuture: certificate refused at line $(($(wc -l <cert))): Truncated" follow packages cut journal
wants 11 '' 'distfuture: bad journal at line 2: NotHeld' follow packages cert twice
wants 10 '' 'distfuture: bad list at line 1' health packages unknown

# Memory that is too small for the file.
{ printf 'Package: a\nVersion: 1\nDescription: ' && head -c 24000000 /dev/zero | tr '\0' x && echo; } >wide
for words in 'classes wide' 'strong wide never' 'outdated wide never' 'challenged wide never' 'check wide cert' 'health wide alone' \
    'explain wide never --package a=1' 'repair wide never --package a=1' 'check-explain wide explained' 'check-repair wide repaired'; do
    got=0
    (ulimit -v 24000 && exec "$program" $words >out 2>err) || got=$?
    if [ "$got" != 7 ] || [ "$(cat err)" != 'distfuture: no memory' ] || [ -s out ] || [ -e never ]; then
        echo "wrong: $words with little memory ended with $got and told '$(cat err)'"
        failed=1
    fi
done

# A certificate of each kind and mode, and what its command prints.
for kind in strong outdated challenged; do
    for mode in '' ' --essential'; do
        "$program" $kind packages "of $kind$mode" $mode >"report of $kind$mode"
        "$program" check packages "of $kind$mode" | cmp -s - "report of $kind$mode" || { echo "wrong: check of $kind$mode"; failed=1; }
    done
done
for command in explain repair; do
    "$program" $command packages "of $command" --package a=1 >"report of $command"
    "$program" check-$command packages "of $command" | cmp -s - "report of $command" || { echo "wrong: check-$command"; failed=1; }
done
"$program" health packages both >'report of health'
"$program" classes packages >'report of classes'
"$program" try --size 2 --seed 0 >'report of try'
"$program" steps packages later >'report of steps'
"$program" follow packages cert journal >'report of follow'

# Runs a program with a pipe that nobody reads in the place of a stream, and without what Python does about the signal of such.
broken='import os, signal, sys
signal.signal(signal.SIGPIPE, signal.SIG_DFL)
reader, writer = os.pipe()
os.close(reader)
os.dup2(writer, int(sys.argv[1]))
os.execv(sys.argv[2], sys.argv[2:])'
python=$(python3 -c 'import sys; print(sys.executable)')

# with STREAM HOW WORDS..: the status in $got, with standard output (1) or error (2) that is full, closed, or a pipe that nobody reads.
with() {
    stream=$1 how=$2
    shift 2
    got=0
    : >out
    : >err
    case $stream$how in
    1full) "$program" "$@" >/dev/full 2>err || got=$? ;;
    1closed) "$program" "$@" >&- 2>err || got=$? ;;
    1broken) "$python" -c "$broken" 1 "$program" "$@" 2>err || got=$? ;;
    2full) "$program" "$@" >out 2>/dev/full || got=$? ;;
    2closed) "$program" "$@" >out 2>&- || got=$? ;;
    2broken) "$python" -c "$broken" 2 "$program" "$@" >out || got=$? ;;
    esac
}

# Standard output that takes nothing is a write fault of each command. The certificate is whole, and no file is taken for a closed stream.
for how in full closed broken; do
    for kind in strong outdated challenged; do
        for mode in '' ' --essential'; do
            rm -f apart
            with 1 $how $kind packages apart $mode
            if [ "$got" != 6 ] || [ "$(cat err)" != 'distfuture: write fault' ] || ! cmp -s "of $kind$mode" apart; then
                echo "wrong: $kind$mode with a $how output ended with $got and told '$(cat err)', or its certificate is another"
                failed=1
            fi
            cp "of $kind$mode" apart
            with 1 $how check packages apart
            if [ "$got" != 6 ] || [ "$(cat err)" != 'distfuture: write fault' ] || ! cmp -s "of $kind$mode" apart; then
                echo "wrong: check of $kind$mode with a $how output ended with $got and told '$(cat err)', or it changed its file"
                failed=1
            fi
        done
    done
    for command in explain repair; do
        rm -f apart
        with 1 $how $command packages apart --package a=1
        if [ "$got" != 6 ] || [ "$(cat err)" != 'distfuture: write fault' ] || ! cmp -s "of $command" apart; then
            echo "wrong: $command with a $how output ended with $got and told '$(cat err)', or its file is another"
            failed=1
        fi
        with 1 $how check-$command packages apart
        if [ "$got" != 6 ] || [ "$(cat err)" != 'distfuture: write fault' ] || ! cmp -s "of $command" apart; then
            echo "wrong: check-$command with a $how output ended with $got and told '$(cat err)', or it changed its file"
            failed=1
        fi
    done
    for words in 'health packages both' 'health packages alone' 'classes packages' 'steps packages later' \
        'steps packages earlier' 'follow packages cert journal' 'try --size 2 --seed 0'; do
        with 1 $how $words
        if [ "$got" != 6 ] || [ "$(cat err)" != 'distfuture: write fault' ]; then
            echo "wrong: $words with a $how output ended with $got and told '$(cat err)'"
            failed=1
        fi
    done
done

# A certificate that takes nothing: nothing is printed.
for kind in strong outdated challenged; do
    for mode in '' '--essential'; do
        wants 6 '' 'distfuture: write fault' $kind packages /dev/full $mode
    done
done

for command in explain repair; do
    wants 6 '' 'distfuture: write fault' $command packages /dev/full --package a=1
done

# Standard error that takes nothing leaves the status as it is, and what is printed.
for how in full closed broken; do
    for row in '3 health bad both' '3 classes bad' '3 strong bad never' '3 outdated bad never' '3 challenged bad never' '3 check bad cert' \
        '2 try --size 2' '2' '3 explain bad never --package a=1' '3 repair bad never --package a=1' '13 explain packages never --package a=2' \
        '13 repair packages never --package a=2' '4 check-explain packages cut-explained' '4 check-repair packages cut-repaired' '4 check packages cut' \
        '5 strong missing never' '6 outdated packages missing/cert' '8 health long both' '10 health packages unknown' '11 follow packages cert twice'; do
        set -- $row
        wanted=$1
        shift
        with 2 $how "$@"
        if [ "$got" != "$wanted" ] || [ -s out ] || [ -e never ]; then
            echo "wrong: $* with a $how standard error ended with $got, and printed '$(cat out)'"
            failed=1
        fi
    done
    # What has nothing to tell does not care.
    for name in strong outdated challenged; do
        with 2 $how $name packages apart
        if [ "$got" != 0 ] || ! cmp -s out "report of $name" || ! cmp -s apart "of $name"; then
            echo "wrong: $name with a $how standard error ended with $got"
            failed=1
        fi
    done
    for name in explain repair; do
        with 2 $how $name packages apart --package a=1
        if [ "$got" != 0 ] || ! cmp -s out "report of $name" || ! cmp -s apart "of $name"; then
            echo "wrong: $name with a $how standard error ended with $got"
            failed=1
        fi
    done
    for row in 'health packages both' 'classes packages' 'steps packages later' 'follow packages cert journal' 'try --size 2 --seed 0'; do
        with 2 $how $row
        if [ "$got" != 0 ] || ! cmp -s out "report of ${row%% *}"; then
            echo "wrong: $row with a $how standard error ended with $got"
            failed=1
        fi
    done
done
[ "$failed" = 0 ] && echo 'each status as it should be'
exit "$failed"
