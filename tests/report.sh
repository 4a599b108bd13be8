#!/bin/sh
# The compiled programs report, bound, convert, pack and show on every sample, on a long input, and on an input that comes byte by byte;
# compare on every pair that is stored.
set -eu
cd "$(dirname "$0")/.."
room=$(mktemp -d)
trap 'rm -rf "$room"' EXIT
trap 'exit 1' HUP INT TERM

wrong() { # MESSAGE: of the input $name
    echo "tests/report.sh: $name: $1" && cat "$room/said"
    exit 1
}

run() { # COMMAND WORD..: its output, messages and status are kept
    status=0
    ./bellkettle "$@" >"$room/got" 2>"$room/said" || status=$?
}

expect() { # COMMAND NAME SAMPLE [SHEET]: what it prints of the sheet, or of standard input, is what it must print of the sample
    command=$1 name="$1: $2" expected=$3.$1
    shift 3
    run "$command" "$@"
    cmp -s "$room/got" "$expected" || { echo "expected" && cat "$expected" && echo "got" && cat "$room/got" && wrong 'this is not what it must print'; }
    case $status:$(head -n 1 "$expected") in
    0:task* | 1:refused*) echo "$name" >>"$room/tried" ;;
    *) wrong "ended with status $status" ;;
    esac
}

converts() { # EDITION SHEET WANTED: the sheet in that edition has the bytes of the file WANTED
    name="convert --to $1: $2"
    run convert --to "$1" "$2"
    [ "$status" -eq 0 ] && cmp -s "$room/got" "$3" && [ ! -s "$room/said" ] || wrong "status 0 and the bytes of $3 expected"
    echo "$name" >>"$room/tried"
}

stays() { # EDITION SHEET LINE: no sheet is written, and the refusal is this line
    name="convert --to $1: $2"
    run convert --to "$1" "$2"
    [ "$status" -eq 1 ] && [ ! -s "$room/got" ] && [ "$(head -n 1 "$room/said")" = "$3" ] || wrong "status 1 and '$3' expected"
    echo "$name" >>"$room/tried"
}

there_and_back() { # SHEET OLD NEW: it is of edition OLD; in edition NEW it has the same report and bound, and from there it comes back
    name="convert --to $3 and back: $1"
    ./bellkettle convert --to "$3" "$1" >"$room/there.sheet" 2>"$room/said" || wrong 'a sheet expected'
    ! cmp -s "$1" "$room/there.sheet" || wrong 'other bytes expected'
    converts "$2" "$room/there.sheet" "$1"
    converts "$3" "$room/there.sheet" "$room/there.sheet"
    for command in report bound; do expect $command "$1 in edition $3" "${1%.sheet}" "$room/there.sheet"; done
}

for command in report bound; do
    for sheet in samples/*.sheet; do
        expect $command "$sheet" "${sheet%.sheet}" "$sheet"
    done

    { cat samples/lone.sheet && head -c 1000000 /dev/zero; } | expect $command 'a megabyte after a good sheet' samples/refused-9-surplus
    { cat samples/suite.sheet && head -c 1000000 /dev/zero; } | expect $command 'a megabyte after a good suite' samples/refused-9-suite

    for place in $(seq 0 $(($(wc -c <samples/radio.sheet) - 1))); do
        tail -c +$((place + 1)) samples/radio.sheet | head -c 1
        sleep 0.02
    done | expect $command 'a sheet in pieces' samples/radio
done

./bellkettle convert --to 2 samples/radio.sheet >/dev/null 2>&1 # it stands there from here on

# A conversion judges the fields only: a sheet that is late, or too long for a report, converts.
for sheet in samples/*.sheet; do
    line=$(head -n 1 "${sheet%.sheet}.report")
    case $(od -An -tx1 -N1 "$sheet") in ' f'[89a-f]) edition=2 ;; *) edition=1 ;; esac
    case $edition:$line in
    *:'refused 10' | *:'refused 11' | *:'refused 15'* | *:tasks*)
        converts $edition "$sheet" "$sheet"
        if [ $edition = 1 ]; then
            there_and_back "$sheet" 1 2
        elif ./bellkettle convert --to 1 "$sheet" >"$room/first" 2>/dev/null; then
            there_and_back "$sheet" 2 1
        else
            stays 1 "$sheet" 'refused 18'
        fi
        ;;
    *)
        stays 1 "$sheet" "$line"
        stays 2 "$sheet" "$line"
        ;;
    esac
done
for sheet in lone radio; do
    converts 2 samples/$sheet.sheet samples/$sheet-edition-2.sheet
    converts 1 samples/$sheet-edition-2.sheet samples/$sheet.sheet
done
for words in 'text samples/radio.sheet' 'sheet samples/radio.txt'; do ./bellkettle $words >/dev/null 2>&1; done # they stand there from here on
# A text beside each sheet that is well formed: it is packed to the sheet, has its report and its bound, and what is shown of the sheet is
# packed to it again; the texts that have no names of their own are what is shown.
for sheet in samples/*.sheet; do
    text=${sheet%.sheet}.txt
    name="text $sheet"
    run text "$sheet"
    if [ ! -e "$text" ]; then
        [ "$status" -eq 1 ] && [ ! -s "$room/got" ] && [ "$(head -n 1 "$room/said")" = "$(cat "${sheet%.sheet}.report")" ] || wrong "status 1 and report's refusal expected"
        echo "$name" >>"$room/tried"
        continue
    fi
    [ "$status" -eq 0 ] && [ ! -s "$room/said" ] || wrong 'status 0 and a text expected'
    cp "$room/got" "$room/shown"
    grep -q '^#' "$text" || cmp -s "$room/shown" "$text" || wrong "the lines of $text expected"
    for typed in "$text" "$room/shown"; do
        name="sheet $typed"
        run sheet "$typed"
        [ "$status" -eq 0 ] && cmp -s "$room/got" "$sheet" && [ ! -s "$room/said" ] || wrong "status 0 and the bytes of $sheet expected"
        echo "$name" >>"$room/tried"
    done
    for command in report bound; do expect $command "$text" "${sheet%.sheet}" "$text"; done
done

for sheet in suite suite-of-eight radio-own-limit refused-10-suite refused-15-suite; do stays 1 samples/$sheet.sheet 'refused 18'; done

for expected in samples/*.compare; do
    pair=${expected##*/} pair=${pair%.compare}
    name="compare: $pair"
    run compare "samples/${pair%.*}.sheet" "samples/${pair#*.}.sheet"
    cmp -s "$room/got" "$expected" || { echo "expected" && cat "$expected" && echo "got" && cat "$room/got" && wrong 'this is not what it must print'; }
    case $status:$(head -n 1 "$expected") in
    0:applies | 4:differs* | 1:old* | 1:new*) echo "$name" >>"$room/tried" ;;
    *) wrong "ended with status $status" ;;
    esac
done

echo "report, bound, convert, compare, sheet, text: $(wc -l <"$room/tried") inputs as the model says"
