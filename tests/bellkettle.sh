#!/bin/sh
# The launcher as people meet it: what it explains, every exit status, refusals in words, and the first run. The first run is tried on
# small trees with a kit that proves nothing and plays what a kit can do: succeed, fail, be interrupted.
set -eu
cd "$(dirname "$0")/.."
here=$(pwd -P)
. tools/packages.sh
need script bsdutils
need setpriv util-linux

. tests/uses.sh

# What is explained

for words in 'report samples/radio.sheet' 'bound samples/radio.sheet' 'convert --to 2 samples/radio.sheet' \
    'compare samples/radio-edition-2.sheet samples/radio.sheet' 'replay samples/radio.sheet samples/radio-full.log'; do
    ./bellkettle $words >/dev/null 2>&1 || true # they stand there from here on
done
try 'no command' ./bellkettle
ends 0 && says_nothing && cp "$room/out" "$room/all"
for command in tools/commands/*; do
    command=${command##*/}
    grep -q "^    $command " "$room/all" || wrong "$command expected among the commands"
    try "help $command" ./bellkettle help "$command"
    ends 0 && says_nothing && cp "$room/out" "$room/one"
    grep -q "^bellkettle $command " "$room/one" || wrong "the use of $command expected"
    try "$command --help" ./bellkettle "$command" --help
    ends 0 && says_nothing && prints "$room/one"
done
for word in help --help -h; do
    try "$word" ./bellkettle "$word"
    ends 0 && says_nothing && prints "$room/all"
done
try '--version' ./bellkettle --version
ends 0 && says_nothing
[ "$(grep -c . "$room/out")" -eq 3 ] && grep -q '^bellkettle [0-9]' "$room/out" || wrong 'three lines expected, the first with the version'
grep -qx "kit $(rt version)" "$room/out" || wrong 'the identity of the kit expected'
if [ -e .git ]; then grep -q "^commit $(git rev-parse HEAD)" "$room/out" || wrong 'the commit expected'; fi

# Wrong use

try 'no such command' ./bellkettle reprot samples/radio.sheet
refuses_use "there is no command 'reprot'"
try 'a path for a command' ./bellkettle ../run report
refuses_use "there is no command '../run'"
try 'help for no command' ./bellkettle help reprot
refuses_use "there is no command 'reprot'"
try 'no such option' ./bellkettle --reprot
refuses_use "there is no option '--reprot'"
for command in report bound; do
    try "an option that $command does not have" ./bellkettle $command --verbose
    refuses_use "$command has no option '--verbose'"
    try "$command: two sheets" ./bellkettle $command samples/radio.sheet samples/trio.sheet
    refuses_use "$command takes one sheet, and 2 were given"
done
try 'an edition for a command that takes none' ./bellkettle report --to 2 samples/radio.sheet
refuses_use "report has no option '--to'"
for words in '' samples/radio.sheet 'samples/radio.sheet --to 2'; do
    try "convert $words" ./bellkettle convert $words
    refuses_use 'convert has to be told an edition'
done
for words in '--to' '--to 0' '--to 3 samples/radio.sheet' '--to samples/radio.sheet'; do
    try "convert $words" ./bellkettle convert $words
    refuses_use "there is no edition '"
done
try 'an option that convert does not have' ./bellkettle convert --from 1 samples/radio.sheet
refuses_use "convert has no option '--from'"
try 'an option that convert does not have, after the edition' ./bellkettle convert --to 2 --verbose
refuses_use "convert has no option '--verbose'"
try 'convert: two sheets' ./bellkettle convert --to 2 samples/radio.sheet samples/trio.sheet
refuses_use 'convert takes one sheet, and 2 were given'
try 'an option that compare does not have' ./bellkettle compare --all samples/radio.sheet samples/trio.sheet
refuses_use "compare has no option '--all'"
for words in '' samples/radio.sheet 'samples/radio.sheet samples/trio.sheet samples/lone.sheet'; do
    try "compare $words" ./bellkettle compare $words
    refuses_use "compare takes two sheets, the old and the new, and $(echo "$words" | wc -w) were given"
done
for words in '' samples/radio.sheet 'samples/radio.sheet samples/radio-full.log samples/radio-two.log'; do
    try "replay $words" ./bellkettle replay $words
    refuses_use "replay takes a sheet and a log, and the words given are $(echo $words | wc -w)"
done
try 'replay: both on standard input' ./bellkettle replay - -
refuses_use 'only one of sheet and log can come on standard input'
try 'an option that replay does not have' ./bellkettle replay --verbose samples/radio.sheet samples/radio-full.log
refuses_use "replay has no option '--verbose'"
try 'version of something' ./bellkettle --version report
refuses_use '--version takes nothing more'

# An answer, and refusals in words

for command in report bound; do
    try "$command: a sheet" ./bellkettle $command samples/radio.sheet
    ends 0 && says_nothing && prints samples/radio.$command
    for words in '' -; do
        try "$command $words: a sheet on standard input" sh -c "./bellkettle $command $words <samples/radio.sheet"
        ends 0 && says_nothing && prints samples/radio.$command
    done
done
try 'convert: a sheet' ./bellkettle convert --to 2 samples/radio.sheet
ends 0 && says_nothing && prints samples/radio-edition-2.sheet
try 'convert: a sheet on standard input' sh -c './bellkettle convert --to 1 <samples/radio-edition-2.sheet'
ends 0 && says_nothing && prints samples/radio.sheet
try 'convert: a sheet named as an option' sh -c 'cp samples/radio.sheet "$1/--to" && cd "$1" && "$2/bellkettle" convert --to 2 -- --to' sh "$room" "$here"
ends 0 && says_nothing && prints samples/radio-edition-2.sheet
try 'convert: to a terminal' script -qec './bellkettle convert --to 2 samples/radio.sheet' /dev/null
ends 2 && grep -q '^bellkettle: a sheet is bytes that a terminal does not show; ' "$room/out" || wrong 'to be told that a file is needed'

try 'replay: a log that agrees' ./bellkettle replay samples/radio.sheet samples/radio-night.log
ends 0 && says_nothing && prints samples/radio-night.replay
try 'replay: a sheet on standard input' sh -c './bellkettle replay - samples/radio-night.log <samples/radio.sheet'
ends 0 && says_nothing && prints samples/radio-night.replay
try 'replay: a log on standard input' sh -c './bellkettle replay samples/radio.sheet - <samples/radio-night.log'
ends 0 && says_nothing && prints samples/radio-night.replay
try 'replay: another file on descriptor 3' sh -c './bellkettle replay samples/radio.sheet samples/radio-night.log 3<samples/radio-breaks.log'
ends 0 && says_nothing && prints samples/radio-night.replay
try 'replay: files named as options' sh -c 'cp samples/radio.sheet "$1/--help" && cp samples/radio-night.log "$1/-" && cd "$1" && "$2/bellkettle" replay -- --help ./-' sh "$room" "$here"
ends 0 && says_nothing && prints samples/radio-night.replay
for log in samples/radio-breaks*.log; do
    try "replay: $log" ./bellkettle replay samples/radio.sheet "$log"
    record=$(sed -n 's/^breaks at record //p' "${log%.log}.replay")
    ends 4 && prints "${log%.log}.replay" && says "^bellkettle: $log: record $record, which begins at bit $((44 + 37 * record)) (.*), does not follow from "
done

sed -n '/^## Refusals/,/^## [^R]/p' README.md | grep -E '^\| (log )?[0-9]' >"$room/table"
cmp "$room/table" tools/refusals.txt || { echo 'tests/bellkettle.sh: the refusals of README.md and tools/refusals.txt are not the same' && exit 1; }

refused_in_words() { # COMMAND SHEET NUMBER BECAUSE REMEDY
    try "$1 $2" ./bellkettle "$1" "$2"
    ends 1 && prints "${2%.sheet}.$1"
    task=$(sed -n 's/.* task //p' "$room/out")
    bit=$(sed -n 's/.* bit //p' "$room/out")
    case $3:$bit in [1-9]:) wrong 'a bit expected' ;; esac
    place=${bit:+"at bit $bit (bit $((bit % 8)) of byte $((bit / 8)), counted from 0): "}
    sentence="$(echo "$4" | sed "s/task i /task $task /"); $5"
    [ "$(cat "$room/err")" = "bellkettle: $2: $place$sentence" ] || wrong 'the place and the sentence of the table expected'
}

not_converted() { # EDITION SHEET BECAUSE REMEDY: the line that report prints, then the words, all on standard error
    try "convert --to $1 $2" ./bellkettle convert --to "$1" "$2"
    ends 1 && prints_nothing
    [ "$(wc -l <"$room/err")" -eq 2 ] || wrong 'two lines expected'
    case $(sed -n 2p "$room/err") in
    "bellkettle: $2: "*"$3; $4") ;;
    *) wrong 'the sentence of the table expected' ;;
    esac
}

refused_log() { # LOG NUMBER BECAUSE REMEDY
    try "replay $1" ./bellkettle replay samples/radio.sheet "$1"
    ends 1 && prints "${1%.log}.replay"
    case $(cat "$room/out") in
    "log: refused $2" | "log: refused $2 bit "*) ;;
    *) wrong "log: refused $2 expected" ;;
    esac
    bit=$(sed -n 's/.* bit //p' "$room/out")
    case $2:$bit in [1-9]:) wrong 'a bit expected' ;; esac
    place=${bit:+"at bit $bit (bit $((bit % 8)) of byte $((bit / 8)), counted from 0): "}
    [ "$(cat "$room/err")" = "bellkettle: $1: $place$3; $4" ] || wrong 'the place and the sentence of the table expected'
}

while IFS='|' read -r _ number because remedy _; do
    number=${number# } because=${because# } remedy=${remedy# }
    number=${number% } because=${because% } remedy=${remedy% }
    case $number in
    'log '*)
        for log in samples/radio-refused-"${number#log }"-*.log; do refused_log "$log" "${number#log }" "$because" "$remedy"; done
        continue
        ;;
    esac
    if [ "$number" = 18 ]; then
        for sheet in suite radio-own-limit; do not_converted 1 samples/$sheet.sheet "$because" "$remedy"; done
        [ "$(head -n 1 "$room/err")" = 'refused 18' ] || wrong 'the refusal expected'
        continue
    fi
    for sheet in samples/refused-"$number"-*.sheet; do
        refused_in_words report "$sheet" "$number" "$because" "$remedy"
        case $number in
        10 | 11)
            grep -q "bellkettle bound\$" "$room/err" || wrong 'the command expected that answers such a sheet'
            try "bound $sheet" ./bellkettle bound "$sheet"
            ends 0 && says_nothing && prints "${sheet%.sheet}.bound"
            ;;
        *) refused_in_words bound "$sheet" "$number" "$because" "$remedy" ;;
        esac
        try "replay $sheet" ./bellkettle replay "$sheet" samples/radio-empty.log
        ends 1 && says "^bellkettle: $sheet: " && says "$remedy\$"
        [ "$(cat "$room/out")" = "sheet: $(cat "${sheet%.sheet}.report")" ] || wrong "report's refusal expected, of the sheet"
        case $number in
        10 | 11 | 15) ;;
        *)
            not_converted 2 "$sheet" "$because" "$remedy"
            [ "$(head -n 1 "$room/err")" = "$(cat "${sheet%.sheet}.report")" ] || wrong "report's refusal expected"
            ;;
        esac
    done
done <tools/refusals.txt
for command in report bound; do
    try "$command: a late task" ./bellkettle $command samples/refused-15-late.sheet
    says '^bellkettle: samples/refused-15-late.sheet: task 1 is late: '
    try "$command: a bad budget" ./bellkettle $command samples/refused-4-budget.sheet
    says '^bellkettle: samples/refused-4-budget.sheet: at bit 22 (bit 6 of byte 2, counted from 0): a budget is 0 or over its period; '
    try "$command: no bytes" sh -c "./bellkettle $command </dev/null"
    ends 1 && prints samples/refused-1-empty.$command && says '^bellkettle: standard input: at bit 0 (.*): the bytes end inside a field; '
    try "$command: bytes without an end" ./bellkettle $command /dev/zero
    ends 1 && prints samples/refused-2-count.$command
done
try 'replay: a bad sheet and a bad log' ./bellkettle replay samples/refused-10-hyperperiod.sheet samples/radio-refused-20-start.log
ends 1 && [ "$(cat "$room/out")" = 'sheet: refused 10' ] || wrong 'the refusal of the sheet expected'
try 'replay: a late sheet and a bad log' ./bellkettle replay samples/refused-15-late.sheet samples/radio-refused-20-start.log
ends 1 && [ "$(cat "$room/out")" = 'log: refused 20' ] || wrong 'the refusal of the log expected'
try 'replay: a log without an end' ./bellkettle replay samples/radio.sheet /dev/zero
ends 1 && [ "$(cat "$room/out")" = 'log: refused 9 bit 48' ] && says '^bellkettle: /dev/zero: at bit 48 ' || wrong 'the refusal of the log expected'
try 'a late task beyond any hyperperiod' ./bellkettle bound samples/odd-late.sheet
ends 1 && prints samples/odd-late.bound && says '^bellkettle: samples/odd-late.sheet: task 2 is late: '

# README's reports, its bound and its replays, line by line, the bytes of an edition 2 sheet and of a log, and what is said of the sheets that
# have no report and no old form and of the log that breaks.
try 'the sheet that README does not convert' ./bellkettle convert --to 1 samples/suite.sheet
cp "$room/err" "$room/unconverted"
{ od -An -v -tx1 samples/lone-edition-2.sheet | tr -d '\n' | tr a-f A-F | sed 's/^ //' && echo; } >"$room/bytes"
{ od -An -v -tx1 samples/radio-two.log | tr -d '\n' | tr a-f A-F | sed 's/^ //' && echo; } >>"$room/bytes"
try 'the log that README breaks' ./bellkettle replay samples/radio.sheet samples/radio-breaks.log
cat samples/radio-night.replay "$room/out" "$room/err" >"$room/replayed"
try 'the sheet whose bound README prints' ./bellkettle report samples/odd.sheet
cat samples/radio.report samples/suite.report samples/odd.bound "$room/out" "$room/err" "$room/unconverted" "$room/bytes" "$room/replayed" | while read -r line; do
    grep -qxF "    $line" README.md docs/FORMAT.md || wrong "README.md or docs/FORMAT.md expected to print: $line"
done

# Two sheets

try 'compare: a task at the bottom' ./bellkettle compare samples/radio-edition-2.sheet samples/radio-display.sheet
ends 0 && says_nothing && prints samples/radio-edition-2.radio-display.compare
cp "$room/out" "$room/applies"
try 'compare: another limit' ./bellkettle compare samples/radio-edition-2.sheet samples/radio-own-limit.sheet
ends 0 && says_nothing && prints samples/radio-edition-2.radio-own-limit.compare
differs() { # STATUS OLD NEW MESSAGE
    try "compare $2 $3" ./bellkettle compare "samples/$2.sheet" "samples/$3.sheet"
    ends "$1" && prints "samples/$2.$3.compare" && says "^bellkettle: $4"
    [ "$(wc -l <"$room/err")" -eq 1 ] || wrong 'one line expected'
}
differs 4 radio radio-edition-2 'samples/radio.sheet: this is an old sheet, .* bellkettle convert --to 2 samples/radio.sheet > FILE$'
differs 4 radio-edition-2 radio 'samples/radio.sheet: this is an old sheet, '
differs 4 radio-edition-2 radio-other-chain 'samples/radio-edition-2.sheet, samples/radio-other-chain.sheet: chain one has other tasks, '
differs 4 spread spread-between 'samples/spread-between.sheet: task 3 is on this sheet only, and is not ranked below '
differs 4 spread-between spread 'samples/spread-between.sheet: task 3 is on this sheet only, and is not ranked below '
differs 4 spread spread-above 'samples/spread.sheet, samples/spread-above.sheet: task 1 has another rank on the two sheets, '
differs 1 radio-display radio-display-late 'samples/radio-display-late.sheet: task 3 is late: '
differs 1 refused-4-budget refused-9-suite 'samples/refused-4-budget.sheet: at bit 22 (bit 6 of byte 2, counted from 0): a budget is 0 '
differs 4 radio-edition-2 radio-budget 'samples/radio-edition-2.sheet, samples/radio-budget.sheet: task 2 has another budget on the two sheets, '
cat "$room/applies" "$room/out" "$room/err" | while read -r line; do
    grep -qxF "    $line" README.md || wrong "README.md expected to say: $line"
done

# The sheet that docs/FORMAT.md mends: its bytes before and after, what is printed of it and what is said.
try 'the sheet that docs/FORMAT.md mends' ./bellkettle report samples/refused-4-mistyped.sheet
for sheet in refused-4-mistyped radio; do
    od -An -v -tx1 "samples/$sheet.sheet" | tr -d '\n' | tr a-f A-F | sed 's/^ //'
    echo
done | cat - "$room/out" "$room/err" | while read -r line; do
    grep -qxF "    $line" docs/FORMAT.md || wrong "docs/FORMAT.md expected to say: $line"
done

# Something outside went wrong

for command in report bound; do
    try "$command: no such file" ./bellkettle $command samples/nothing.sheet
    fails 'samples/nothing.sheet: there is no such file; '
    try "$command: a folder" ./bellkettle $command samples
    fails 'samples: this is a folder; '
    try "$command: a folder on standard input" sh -c "./bellkettle $command <samples"
    fails 'standard input: it cannot be read (Is a directory); '
    try "$command: a closed input" sh -c "./bellkettle $command <&-"
    fails 'standard input: it is closed; '
    try "$command: an input that is only written" sh -c "./bellkettle $command 0>/dev/null"
    fails 'standard input: it cannot be read ('
done
try 'convert: no such file' ./bellkettle convert --to 2 samples/nothing.sheet
fails 'samples/nothing.sheet: there is no such file; '
try 'convert: a closed input' sh -c './bellkettle convert --to 2 <&-'
fails 'standard input: it is closed; give a file there, or its name: bellkettle convert --to 2 FILE'
for words in 'samples/nothing.sheet samples/radio.sheet' 'samples/radio.sheet samples/nothing.sheet'; do
    try "compare $words" ./bellkettle compare $words
    fails 'samples/nothing.sheet: there is no such file; '
done
try 'replay: no such sheet' ./bellkettle replay samples/nothing.sheet samples/radio-full.log
fails 'samples/nothing.sheet: there is no such file; '
try 'replay: no such log' ./bellkettle replay samples/radio.sheet samples/nothing.log
fails 'samples/nothing.log: there is no such file; '
try 'replay: a folder for a log' ./bellkettle replay samples/radio.sheet samples
fails 'samples: this is a folder; '
try 'replay: a closed input for a sheet' sh -c './bellkettle replay - samples/radio-full.log <&-'
fails 'standard input: it is closed; give a file there, or its name: bellkettle replay FILE samples/radio-full.log'
try 'replay: a closed input for a log' sh -c './bellkettle replay samples/radio.sheet - <&-'
fails 'standard input: it is closed; give a file there, or its name: bellkettle replay samples/radio.sheet FILE'
for words in 'report samples/radio.sheet' 'report samples/refused-2-count.sheet' 'bound samples/odd.sheet' 'bound samples/refused-2-count.sheet' \
    'convert --to 2 samples/radio.sheet' 'compare samples/radio-edition-2.sheet samples/radio-display.sheet' 'compare samples/spread.sheet samples/spread-between.sheet' \
    'replay samples/radio.sheet samples/radio-full.log' 'replay samples/radio.sheet samples/radio-breaks.log' \
    'replay samples/radio.sheet samples/radio-refused-20-start.log' \
    --help 'help report' 'help bound' 'help convert' 'help compare' 'help replay' --version; do
    try "$words, to a full disk" sh -c "./bellkettle $words >/dev/full"
    fails 'standard output: not all could be written there; '
    try "$words, to a closed output" sh -c "./bellkettle $words >&-"
    fails 'standard output: it is closed; '
done
try 'messages to a full disk' sh -c './bellkettle report samples/refused-2-count.sheet 2>/dev/full'
ends 1 && prints samples/refused-2-count.report
try 'closed messages' sh -c './bellkettle report samples/refused-2-count.sheet 2>&-'
ends 1 && prints samples/refused-2-count.report
try 'no temporary folder' env TMPDIR="$room/nowhere" ./bellkettle report samples/radio.sheet
fails "$room/nowhere: no temporary folder can be made there; "

# A path with the usual commands and no kit.
mkdir "$room/kitless"
for tool in cat dirname env git head mktemp readlink rm sed sh; do
    ln -s "$(command -v "$tool")" "$room/kitless/$tool"
done
try 'no kit' env -u RATTLE_HOME PATH="$room/kitless" ./bellkettle report samples/radio.sheet
fails 'kit not found: install the Rattle kit'
try 'the version with no kit' env -u RATTLE_HOME PATH="$room/kitless" ./bellkettle --version
ends 3 && says '^bellkettle: kit not found: install the Rattle kit' && grep -q '^bellkettle [0-9]' "$room/out" || wrong 'the version expected'
try 'a kit that is none' env RATTLE_HOME="$room" ./bellkettle report samples/radio.sheet
fails "kit not found: $room has "

# The first run. A tree has two crates, and its name spaces. The kit that plays keeps a line for each time it was started.

mkdir -p "$room/plays/bin"
cp "$kit/KIT-ID" "$room/plays"
cat >"$room/plays/bin/rt" <<'EOF'
#!/bin/sh
# rt version, rt lib and rt run, as far as the launcher sees them. $PLAY is what is to happen.
[ "$1" != version ] || { cat "${0%/bin/rt}/KIT-ID" && exit; }
crate=$(basename "$(pwd)")
echo "$crate $*" >>"$ROOM/started"
echo left >"$TMPDIR/left"
mkdir -p out
case "$crate $1" in
'lower lib')
    mkdir -p out/rlib/lower.rlib
    rm -f out/rlib/stamp
    case $PLAY in
    fails)
        echo './proofs/up/Answers.antt:1:1: error: `returns`: it does not follow'
        echo 'fn lower::up: not proved'
        exit 1
        ;;
    breaks) echo 'rt: crates.txt: line 1: expected NAME: DEP DEP ...' && exit 2 ;;
    esac
    echo stamp >out/rlib/stamp
    ;;
'report run')
    echo half >out/report
    case $PLAY in
    HUP | INT | TERM)
        sleep 100 &
        echo $! >"$ROOM/sleeper"
        kill -s "$PLAY" "$(cat "$ROOM/launcher")"
        wait
        ;;
    esac
    sleep "${SECONDS_TAKEN:-0}"
    rm out/report && cp "$PROGRAM" out/report
    echo stamp >out/report.stamp
    echo 'rt: running out/report; to give it other input, run that file yourself' >&2
    [ "$PLAY" != differs ] || exec echo wrong
    exec cat stdout
    ;;
*) echo "rt: $* in $crate" && exit 2 ;;
esac
EOF
chmod +x "$room/plays/bin/rt"
export ROOM="$room" PROGRAM="$here/target/bin/report" PATH="$room/plays/bin:$PATH" PLAY=succeeds
unset RATTLE_HOME

tree="$room/a tree"
plant() { # a tree that was never built
    rm -rf "$tree" "$room/started"
    mkdir -p "$tree/crates/lower/src" "$tree/crates/report/src"
    echo sheet >"$tree/crates/report/stdin"
    echo report >"$tree/crates/report/stdout"
    cp -R bellkettle tools samples "$tree"
    printf 'lower: # nothing\nreport: lower io libc\nother: lower\n' >"$tree/crates.txt"
    echo 'pub fn up() {}' >"$tree/crates/lower/src/lib.rt"
    echo 'fn main() {}' >"$tree/crates/report/src/main.rt"
}
started() { # TIMES
    [ "$(grep -c '^lower lib$' "$room/started" 2>/dev/null)" -eq "$1" ] || wrong "rt expected to be started $1 times"
}
report() { "$tree/bellkettle" report "$tree/samples/radio.sheet"; }
runs() { # PROCESS: one that has ended may still wait to be reaped
    [ -e "/proc/$1" ] && ! grep -q '^State:[[:space:]]*Z' "/proc/$1/status"
}

plant
try 'no such file, before anything is built' "$tree/bellkettle" report nothing.sheet
fails 'nothing.sheet: there is no such file; ' && [ ! -e "$tree/target" ] && [ ! -e "$tree/crates/lower/out" ] && [ ! -e "$room/started" ] || wrong 'nothing expected to be built'
try 'the first run' report
ends 0 && prints samples/radio.report && started 1
says '^bellkettle: proving and building report from 2 crates; ' && says '^bellkettle: lower is proved, 1 of 2$' && says '^bellkettle: report is proved, 2 of 2$'
try 'the version where no repository is' "$tree/bellkettle" --version
ends 0 && grep -qx 'commit unknown' "$room/out" || wrong 'an unknown commit expected'
try 'the second run' report
ends 0 && prints samples/radio.report && says_nothing && started 1
find "$tree" -exec touch -d 2100-01-01 {} +
try 'sources with a later time' report
ends 0 && says_nothing && started 1
echo 'pub fn down() {}' >"$tree/crates/lower/src/lib.rt"
touch -d 2000-01-01 "$tree/crates/lower/src/lib.rt"
try 'another source with an earlier time' report
ends 0 && prints samples/radio.report && started 2

mkdir -p "$room/other place"
cp samples/radio.sheet "$room/other place/my sheet"
ln -s "$tree/bellkettle" "$room/other place/link"
ln -s "link" "$room/other place/link to a link"
try 'from another folder, through links' sh -c 'cd "$1" && ./"link to a link" report "my sheet"' sh "$room/other place"
ends 0 && prints samples/radio.report && says_nothing
try 'over the path' sh -c 'cd "$1" && PATH="$1:$PATH" && link report "my sheet"' sh "$room/other place"
ends 0 && prints samples/radio.report && says_nothing
cp samples/radio.sheet "$room/other place/--help"
try 'a sheet named as an option' sh -c 'cd "$1" && ./link report -- --help' sh "$room/other place"
ends 0 && prints samples/radio.report && says_nothing

# Somebody who may read the tree and not write it.
reader() { if [ "$(id -u)" -eq 0 ]; then setpriv --reuid=65534 --regid=65534 --clear-groups "$@"; else "$@"; fi; }
chmod -R a-w "$tree"
try 'a reader' reader "$tree/bellkettle" report samples/radio.sheet
ends 0 && prints samples/radio.report && says_nothing
cp samples/radio.sheet "$room/secret" && chmod 0 "$room/secret"
try 'a sheet that may not be read' reader "$tree/bellkettle" report "$room/secret"
fails "$room/secret: you may not read this file; "
chmod -R u+w "$tree"
echo 'pub fn up() {}' >"$tree/crates/lower/src/lib.rt"
chmod -R a-w "$tree"
try 'a reader of other sources' reader "$tree/bellkettle" report samples/radio.sheet
fails "$tree: report has to be proved and built" && started 2
chmod -R u+w "$tree"

plant
try 'a terminal' script -qec "'$tree/bellkettle' report samples/radio.sheet" /dev/null </dev/null
ends 0 && started 1
tr '\r' '\n' <"$room/out" >"$room/lines"
grep -q '^bellkettle: [0-9] of 2 crates proved, [0-9]* s' "$room/lines" && ! grep -q 'is proved, ' "$room/lines" && grep -qxF "$(tail -n 1 samples/radio.report)" "$room/lines" || wrong 'a line that moves expected, and the report'
try 'a sheet typed at a terminal' sh -c 'printf "\004" | script -qec "./bellkettle report" /dev/null'
ends 1 && grep -q '^bellkettle: standard input: a sheet is awaited here' "$room/out" && grep -q '^refused 1' "$room/out" || wrong 'to be told that a sheet is awaited'

plant
PLAY=fails
try 'a crate that is not proved' report
ends 3 && prints_nothing && says "^bellkettle: crate lower is not proved, so report is not built; $tree/target/log/lower.out says why" && says '^fn lower::up: not proved$'
[ "$(cd "$tree/target" && find . -type f)" = ./log/lower.out ] || wrong 'nothing but the log expected to be left'
[ "$(cd "$tree" && find crates -path '*/out/*')" = '' ] || wrong 'no half-built library expected'
PLAY=breaks
try 'a kit that fails' report
ends 3 && prints_nothing && says "^bellkettle: 'rt lib' in $tree/crates/lower ended with status 2, and said" && says '^rt: crates.txt: line 1'
PLAY=differs
try 'a program that does not print what it must' report
ends 3 && prints_nothing && says '^bellkettle: crate report is proved, and its program did not print what it must' && [ ! -e "$tree/target/bin" ] || wrong 'no program expected to be left'
PLAY=succeeds
try 'a run after others that failed' report
ends 0 && prints samples/radio.report && started 4

for signal in HUP:129 INT:130 TERM:143; do
    plant
    PLAY=${signal%:*}
    # A shell in the background ignores INT, and so would all that it starts.
    try "a build interrupted by $PLAY" env --default-signal="$PLAY" sh -c 'echo $$ >"$ROOM/launcher" && exec "$@"' sh "$tree/bellkettle" report "$tree/samples/radio.sheet"
    ends "${signal#*:}" && prints_nothing && says '^bellkettle: interrupted with [01] of 2 crates proved; '
    ! runs "$(cat "$room/sleeper")" || wrong 'every process of the build expected to have ended'
    [ ! -e "$tree/target/bin" ] && [ ! -e "$tree/crates/report/out/report" ] && [ -e "$tree/crates/lower/out/rlib/stamp" ] || wrong 'no half-built program expected, and the proved crate'
    leaves_nothing
    PLAY=succeeds
    try "a run after $signal" report
    ends 0 && prints samples/radio.report
done

plant
export SECONDS_TAKEN=2
report >"$room/first" 2>&1 &
try 'two first runs at once' report
ends 0 && prints samples/radio.report
wait $!
cmp -s samples/radio.report - <<EOF || wrong "the other run printed $(cat "$room/first")"
$(grep -v '^bellkettle: ' "$room/first")
EOF
started 1
cat "$room/first" "$room/err" | grep -q '^bellkettle: another run is building in ' || wrong 'one of the runs expected to wait'

echo 'not a program' >"$tree/target/bin/report"
try 'a program that does not run' report
fails "$tree/target/bin/report: this program did not answer ("
leaves_nothing

# Packages are installed for the gate and the tests, by nothing else.
for script in bellkettle tools/*.sh tools/run tools/prove tools/keep tools/commands/* bench/run; do
    [ "$script" != tools/packages.sh ] || continue
    ! grep 'apt-get\|packages\.sh' "$script" || { echo "tests/bellkettle.sh: $script installs packages" && exit 1; }
done

echo "bellkettle: $tried uses as they should be"
