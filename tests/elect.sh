#!/bin/sh
# Calls ./elect and compares its status, standard output and standard error; says which calls failed.
#
# Steps taken, leaders and values are those of document 01's cards; choices skipped follow from its rows.
# The bench program must be built. Whether ./elect builds it is tried on a copy with an rt made here.

set -u
cd -- "$(dirname -- "$0")/.." || exit 1
elect=./elect
errors=$PWD/target/elect.errors
copy="$PWD/target/a copy"
calls=0
failed=0

# call STATUS OUTPUT ERROR ARGUMENT...: OUTPUT and ERROR are patterns; with status 2 there is one line of ERROR.
call() {
    status=$1 output=$2 error=$3
    shift 3
    calls=$((calls + 1))
    seen=$("$elect" "$@" 2>"$errors")
    seen="status $?|$seen|$(cat "$errors")"
    [ "$status" -ne 2 ] || [ "$(wc -l <"$errors")" -eq 1 ] || seen="not one line|$seen"
    case $seen in
        "status $status|"$output"|"$error) return ;;
    esac
    failed=$((failed + 1))
    printf 'failed: %s %s\n%s\n' "$elect" "$*" "$seen"
}

# This many identities, all 7.
sevens() {
    printf "%0$1d" 0 | sed 's/0/7 /g'
}

make_copy() {
    rm -rf "$copy"
    mkdir -p "$copy/crates/bench" "$copy/tools" "$copy/path"
    cp elect crates.txt "$copy"
    cp tools/build "$copy/tools"
    for tool in cat chmod cp dirname find mkdir rm tr touch wc; do
        ln -s "$(command -v $tool)" "$copy/path"
    done
    printf '#!/bin/sh\necho end 1\n' >"$copy/bench"
    chmod +x "$copy/bench"
    # as old as one that rt leaves as it was
    touch -t 200001010000 "$copy/bench"
}

make_rt() {
    printf '#!/bin/sh\n%s\n' "$1" >"$copy/path/rt"
    chmod +x "$copy/path/rt"
}

call 0 '1 0 0 1
2 0 1 2
3 0 2 6
end 1 taken 3 skipped 0 leader 0 value 7' '' 7
call 0 '*end 1 taken 19 skipped 8 leader 2 value 7' ''
call 0 '*end 1 taken 19 skipped 8 leader 2 value 7' '' 3 07@3 4@2 --capacity 02
call 0 '*end 1 taken 13 skipped 2 leader 0 value 9' '' --capacity=16 5 9
call 0 '*end 1 taken 41 skipped 19 leader 3 value 4' '' 4 1 3 2
call 0 '*end 1 taken 13 skipped 2 leader 0 value 16777216' '' 1@2 16777216
call 0 '*end 1 taken 3 skipped 0 leader 0 value 623191333' '' 623191333
call 0 '*end 1 taken 3 skipped 0 leader 0 value 4294967295' '' 0004294967295@2
call 0 '*end 0 taken 3 skipped 1 leader - value -' '' 5 9 --schedule 0,1,0,0
call 0 '*end 0 taken 2 skipped 1 leader - value -' '' '--schedule=0 255, 00' 08
call 0 'end 0 taken 0 skipped 0 leader - value -' '' --schedule ''
call 0 '*./elect *--capacity*' '' --help
call 2 'refused 1' '*17 identities *refusal 1)' $(sevens 17)
call 2 'refused 2' '*capacity 0 *refusal 2)' 7 --capacity 0
call 2 'refused 4' '*identity 5 *refusal 4)' 5 9 05@2
call 2 '' '*too many identities: *' $(sevens 256)
for text in '' -1 +1 1.5 0x10 08a ' 9' @2 4294967296 99999999999999999999; do
    call 2 '' "*'$text' is no identity: *" "$text"
done
call 2 '' "*is no identity: *" '9
9'
for text in 9@ 9@0 9@4 9@2@2; do
    call 2 '' "*'$text' has no generation *" "$text"
done
for text in '' -1 256 1.5; do
    call 2 '' "*'$text' is no capacity: *" --capacity "$text"
    call 2 '' "*'$text' is no choice *" "--schedule=0,$text"
done
call 2 '' "*'[*]' is no choice *" '--schedule=*'
call 2 '' "*'--turns' is no option: *" --turns
call 2 '' '*--capacity has no value: *' 7 --capacity
call 2 '' '*--schedule has no value: *' 7 --schedule

make_copy
elect=$copy/elect
PATH=$copy/path
cd /
call 3 '' '*rt, which builds it, is not on the PATH'
make_rt 'exit 1'
call 3 '' '*building*could not be built: *'
make_rt 'mkdir -p out && cp -p ../../bench out'
call 0 'end 1' '*building*'
make_rt 'exit 1'
call 0 'end 1' ''
touch -t 209901010000 "$copy/crates.txt"
call 3 '' '*could not be built: *'
rm -rf "$copy"

printf 'elect: %s calls, %s failed\n' $calls $failed
[ $failed -eq 0 ]
