#!/bin/sh
# The compiled program replay on every sample log with Radio's sheet, on every sample sheet with a log of no records, on long inputs, and on
# inputs that come byte by byte. The sheet is on standard input and the log on file descriptor 3, as the launcher gives them.
set -eu
cd "$(dirname "$0")/.."
room=$(mktemp -d)
trap 'rm -rf "$room"' EXIT
trap 'exit 1' HUP INT TERM
tried=0

wrong() { # MESSAGE: of the input $name
    echo "tests/replay.sh: $name: $1"
    exit 1
}

expect() { # NAME FILE [EDIT]: what it prints, of the sheet on standard input and the log on descriptor 3, is in the file once it is edited
    name=$1
    tools/run replay >"$room/whole" || wrong "ended with status $?"
    sed "${3:-}" "$room/whole" >"$room/got"
    cmp -s "$room/got" "$2" || { echo "expected" && cat "$2" && echo "got" && cat "$room/got" && wrong 'this is not what it must print'; }
    tried=$((tried + 1))
}

in_pieces() { # FILE
    for place in $(seq 0 $(($(wc -c <"$1") - 1))); do
        tail -c +$((place + 1)) "$1" | head -c 1
        sleep 0.01
    done
}

for log in samples/*.log; do
    expect "$log" "${log%.log}.replay" <samples/radio.sheet 3<"$log"
done

# A log of no records agrees with every sheet that is taken, whatever its sampling figure; a refusal is the report's.
printf 'records 0\npaths 0\nlongest none\nfigure\nagrees\n' >"$room/no-records"
for sheet in samples/*.sheet; do
    report=${sheet%.sheet}.report
    case $(cat "$report") in
    refused*) sed 's/^/sheet: /' "$report" >"$room/expected" ;;
    *) cp "$room/no-records" "$room/expected" ;;
    esac
    expect "$sheet" "$room/expected" 's/^figure [0-9]*$/figure/' <"$sheet" 3<samples/radio-empty.log
done

{ cat samples/radio-two.log && head -c 1000000 /dev/zero; } >"$room/long.log"
echo 'log: refused 9 bit 120' >"$room/long"
expect 'a megabyte after a good log' "$room/long" <samples/radio.sheet 3<"$room/long.log"
{ cat samples/lone.sheet && head -c 1000000 /dev/zero; } >"$room/long.sheet"
sed 's/^/sheet: /' samples/refused-9-surplus.report >"$room/long"
expect 'a megabyte after a good sheet' "$room/long" <"$room/long.sheet" 3<samples/radio-empty.log

mkfifo "$room/pipe"
in_pieces samples/radio-full.log >"$room/pipe" &
in_pieces samples/radio.sheet | expect 'sheet and log in pieces' samples/radio-full.replay 3<"$room/pipe"
wait
cat samples/radio-longest.log >"$room/pipe" &
expect 'the longest log through a pipe' samples/radio-longest.replay <samples/radio.sheet 3<"$room/pipe"
wait
echo 'log: refused 1 bit 0' >"$room/expected"
expect 'no descriptor 3' "$room/expected" <samples/radio.sheet 3<&-

echo "replay: $tried inputs as the model says"
