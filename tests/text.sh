#!/bin/sh
# Sheets typed as text, as people meet them: packed, shown, in the place of a sheet, and everything that can be wrong with one.
set -eu
cd "$(dirname "$0")/.."
here=$(pwd -P)
. tools/packages.sh
need script bsdutils
. tests/uses.sh

for words in 'sheet samples/radio.txt' 'text samples/radio.sheet'; do ./bellkettle $words >/dev/null 2>&1; done
for program in report bound 'convert --to 2'; do ./bellkettle $program samples/radio.sheet >/dev/null 2>&1; done # all stand there from here on

# Wrong use

try 'sheet: two texts' ./bellkettle sheet samples/radio.txt samples/trio.txt
refuses_use 'sheet takes one text, and 2 were given'
try 'text: two sheets' ./bellkettle text samples/radio.sheet samples/trio.sheet
refuses_use 'text takes one sheet, and 2 were given'
try 'report: two texts' ./bellkettle report --text samples/radio.txt samples/trio.txt
refuses_use 'report takes one sheet, and 2 were given'
try 'an option for a command that takes texts alone' ./bellkettle sheet --text samples/radio.txt
refuses_use "sheet has no option '--text'"
try 'another option after --text' ./bellkettle report --text --verbose
refuses_use "report has no option '--verbose'"

# Texts: packed, shown, and in the place of a sheet

try 'sheet: a text' ./bellkettle sheet samples/radio.txt
ends 0 && says_nothing && prints samples/radio.sheet
try 'sheet: a text on standard input' sh -c './bellkettle sheet <samples/suite.txt'
ends 0 && says_nothing && prints samples/suite.sheet
try 'sheet: to a terminal' script -qec './bellkettle sheet samples/radio.txt' /dev/null
ends 2 && grep -q '^bellkettle: a sheet is bytes that a terminal does not show; ' "$room/out" || wrong 'to be told that a file is needed'
try 'text: a sheet' ./bellkettle text samples/trio.sheet
ends 0 && says_nothing && prints samples/trio.txt
try 'text: a sheet on standard input' sh -c './bellkettle text <samples/suite-of-eight.sheet'
ends 0 && says_nothing && prints samples/suite-of-eight.txt
try 'text: a text with names of its own' ./bellkettle text samples/suite.txt
ends 0 && says_nothing && ./bellkettle sheet "$room/out" | cmp -s - samples/suite.sheet || wrong 'a text of the same sheet expected'
cp samples/radio.txt "$room/RADIO.TXT"
cp samples/radio.txt "$room/typed"
cp samples/radio.txt "$room/--text"
for command in report bound; do
    for words in samples/radio.txt "$room/RADIO.TXT" "--text $room/typed" '--text -- samples/radio.txt'; do
        try "$command $words" ./bellkettle $command $words
        ends 0 && says_nothing && prints samples/radio.$command
    done
    for words in --text '--text -'; do
        try "$command $words: a text on standard input" sh -c "./bellkettle $command $words <samples/radio.txt"
        ends 0 && says_nothing && prints samples/radio.$command
    done
    try "$command: a text named as the option" sh -c "cd '$room' && '$here/bellkettle' $command --text -- --text"
    ends 0 && says_nothing && prints samples/radio.$command
    try "$command: a text that is not said to be one" sh -c "./bellkettle $command <samples/radio.txt"
    ends 1 && says '^bellkettle: standard input: at bit '
done
for words in '--to 2 samples/radio.txt' "--to 2 --text $room/typed" '--text --to 2 samples/radio.txt' '--to 2 --text -- samples/radio.txt'; do
    try "convert $words" ./bellkettle convert $words
    ends 0 && says_nothing && prints samples/radio-edition-2.sheet
done
try 'convert: a text that has no old form' ./bellkettle convert --to 1 samples/suite.txt
ends 1 && prints_nothing && says '^refused 18$' && says '^bellkettle: samples/suite.txt: an old sheet cannot hold it: '
for text in samples/refused-*.txt; do
    try "report $text" ./bellkettle report "$text"
    ends 1 && prints "${text%.txt}.report" && sed "s,$text,${text%.txt}.sheet," "$room/err" >"$room/said"
    try "report ${text%.txt}.sheet" ./bellkettle report "${text%.txt}.sheet"
    cmp -s "$room/err" "$room/said" || wrong "the words expected that are said of the text: $(cat "$room/said")"
done
for sheet in samples/refused-4-budget.sheet samples/refused-9-suite.sheet samples/refused-13-limit.sheet samples/refused-1-empty.sheet; do
    try "text $sheet" ./bellkettle text "$sheet"
    ends 1 && prints_nothing && says "^bellkettle: $sheet: "
    [ "$(head -n 1 "$room/err")" = "$(cat "${sheet%.sheet}.report")" ] || wrong "report's refusal expected"
done

# What is wrong with a text: the words of the table, the line, and a mark under the place

sed -n '/^### What can be wrong with a text/,/^## /p' docs/FORMAT.md | grep '^| [0-9]' >"$room/table"
cmp "$room/table" tools/mistakes.txt || { echo 'tests/bellkettle.sh: the mistakes of docs/FORMAT.md and tools/mistakes.txt are not the same' && exit 1; }

marks() { # LINE, as printf has it, and the MARK under it
    printf "    $1\n    $2^\n" | sed 's/ *$//' >"$room/marked"
    sed -n '2,$s/ *$//p' "$room/err" | cmp -s - "$room/marked" || wrong "this line and its mark expected: $(cat "$room/marked")"
}

in_words() { # MISTAKE
    sed -n "s/^| $1 | \(.*\) | \(.*\) |\$/expected \1; \2/p" tools/mistakes.txt
}

mistyped() { # mistake|refused NUMBER LINE COLUMN TEXT, as printf has it
    printf "$5" >"$room/typed.txt"
    case $1 in
    mistake) words=$(in_words "$2") ;;
    refused) words=$(sed -n "s/^| $2 | \(.*\) | \(.*\) |\$/refused $2: \1; \2/p" tools/refusals.txt) ;;
    esac
    try "$1 $2: $5" ./bellkettle report "$room/typed.txt"
    ends 1 && prints_nothing
    [ "$(head -n 1 "$room/err")" = "bellkettle: $room/typed.txt:$3:$4: ${words:-no words}" ] || wrong "the place $3:$4 expected, and: $words"
    marks "$(sed -n "$3p" "$room/typed.txt" | tr -d '\r')" "$(printf "%$(($4 - 1))s" '')"
    echo "$1 $2" >>"$room/mistyped"
}

a='task a period 20 budget 5 rank 1\n' b='task b period 6 budget 1 rank 3\n' sixteen='' nine=''
for i in 0 1 2 3 4 5 6 7 8 9 10 11 12 13 14 15; do sixteen="${sixteen}task t$i period 100 budget 1 rank $i\n"; done
for i in 0 1 2 3 4 5 6 7 8; do nine="${nine}chain t$i\n"; done
mistyped mistake 1 1 1 ''
mistyped mistake 1 2 3 '\n  Task a period 20 budget 5 rank 1\n'
mistyped mistake 2 2 1 'edition 1\nchain a\n'
mistyped mistake 3 1 33 "${a%??}"
mistyped mistake 3 3 1 "$a$b"
mistyped mistake 4 3 1 "${a}chain a\n$b"
mistyped mistake 5 1 8 'edition\n'
mistyped mistake 6 1 11 'edition 2 task\n'
mistyped mistake 7 1 6 'task period 20 budget 5 rank 1\n'
mistyped mistake 8 1 8 'task a perod 20 budget 5 rank 1\n'
mistyped mistake 9 1 15 'task a period -20 budget 5 rank 1\n'
mistyped mistake 10 1 18 'task a period 20 5 rank 1\n'
mistyped mistake 11 1 25 'task a period 20 budget five rank 1\n'
mistyped mistake 12 1 27 'task a period 20 budget 5\r\n'
mistyped mistake 13 1 34 'task a period 20 budget 5 rank #1\n'
mistyped mistake 14 1 34 'task a period 20 budget 5 rank 1 chain a\n'
mistyped mistake 15 2 6 "${a}chain\n"
mistyped mistake 16 2 13 "${a}chain limit a\n"
mistyped mistake 17 2 15 "${a}chain limit 10\n"
mistyped mistake 18 3 9 "$a${b}chain a > b\n"
mistyped mistake 19 2 6 "$a$a"
mistyped mistake 20 3 9 "$a${b}chain a B\n"
mistyped mistake 21 1 32 'task a period 20 budget 5 rank 256\n'
mistyped mistake 22 3 7 "edition 1\n${a}chain limit 10 a\n"
mistyped mistake 23 4 1 "edition 1\n${a}chain a\nchain 0\n"
mistyped refused 2 17 1 "$sixteen$a"
mistyped refused 3 1 15 'task a period 100001 budget 5 rank 1\n'
mistyped refused 4 1 25 'task a period 20 budget 21 rank 1\n'
mistyped refused 5 2 31 "${a}task b period 6 budget 1 rank 01\n"
mistyped refused 6 2 9 "${a}chain a a\n"
mistyped refused 7 2 7 "${a}chain 1\n"
mistyped refused 8 3 9 "$a${b}chain a 0\n"
mistyped refused 13 2 13 "${a}chain limit 4294967296 a\n"
mistyped refused 16 1 9 'edition 3\n'
mistyped refused 17 25 1 "$sixteen$nine"
[ "$(grep mistake "$room/mistyped" | sort -u | wc -l)" -eq $(($(wc -l <tools/mistakes.txt) - 1)) ] || wrong 'every mistake but the last expected'

{ cat samples/radio.txt && head -c 1000000 /dev/zero; } >"$room/long.txt"
for words in "report $room/long.txt" "bound --text $room/long.txt" "convert --to 2 $room/long.txt" "text $room/long.txt" "sheet $room/long.txt"; do
    try "$words" ./bellkettle $words
    ends 1 && prints_nothing && says "^bellkettle: $room/long.txt:6:[0-9]*: $(in_words 24)\$"
done
try 'a text without an end' ./bellkettle report --text /dev/zero
ends 1 && prints_nothing && says '^bellkettle: /dev/zero:1:16385: expected the end of the text; '
[ "$(wc -c <"$room/err")" -lt 500 ] || wrong 'only a part of the line expected'
try 'a mistake on standard input' sh -c 'printf "\ttask\tb  perid 5\r\n" | ./bellkettle bound --text'
ends 1 && prints_nothing && says '^bellkettle: standard input:1:10: ' && marks '\ttask\tb  perid 5' '\t    \t   '
try 'a letter of two bytes before the place' sh -c 'printf "task a period # \303\251\n" | ./bellkettle sheet'
ends 1 && prints_nothing && says '^bellkettle: standard input:1:19: ' && marks 'task a period # \303\251' '                 '
try 'what a terminal would act on' sh -c 'printf "task \033[31m\000 period" | ./bellkettle sheet'
ends 1 && prints_nothing && says '^bellkettle: standard input:1:6: ' && marks 'task ?[31m? period' '     '
for mark in '\357\273\277' '\377\376'; do
    try 'a byte order mark' sh -c "{ printf '$mark' && cat samples/radio.txt; } | ./bellkettle report --text"
    ends 1 && prints_nothing && says '^bellkettle: standard input:1:1: the file begins with a byte order mark'
done
try 'a mistake, with messages to a full disk' sh -c 'echo | ./bellkettle report --text 2>/dev/full'
ends 1 && prints_nothing

# README's texts, the first of them typed by hand; a sheet that it shows, and what it says of a text with two faults.
sed -n '/^A timing sheet is typed as text/,/^A task is released/s/^    //p' README.md >"$room/radio.txt"
try 'the text that README begins with' ./bellkettle report "$room/radio.txt"
ends 0 && says_nothing && prints samples/radio.report
sed 's/period 6 budget 1/perid 6 budget 9/' samples/radio.txt >"$room/radio.txt"
try 'the text that README mends' sh -c 'cd "$1" && "$2/bellkettle" report radio.txt' sh "$room" "$here"
cp "$room/err" "$room/said"
sed 's/period 6 budget 1/period 6 budget 9/' samples/radio.txt >"$room/radio.txt"
try 'the text that README mends in part' sh -c 'cd "$1" && "$2/bellkettle" report radio.txt' sh "$room" "$here"
cat "$room/err" >>"$room/said"
try 'the sheet that README shows' ./bellkettle text samples/radio.sheet
cat samples/radio.txt samples/suite.txt "$room/out" "$room/said" | while IFS= read -r line; do
    grep -qxF "    $line" README.md || wrong "README.md expected to say: $line"
done

# Something outside went wrong

for words in 'sheet samples/nothing.txt' 'text samples/nothing.txt' 'report --text samples/nothing.txt' 'convert --to 2 samples/nothing.txt'; do
    try "$words" ./bellkettle $words
    fails 'samples/nothing.txt: there is no such file; '
done
for words in sheet text 'report --text'; do
    try "$words: a closed input" sh -c "./bellkettle $words <&-"
    fails "standard input: it is closed; give a file there, or its name: bellkettle ${words% --text} FILE"
done
for words in 'sheet samples/radio.txt' 'text samples/radio.sheet' 'report samples/radio.txt' 'help sheet' 'help text'; do
    try "$words, to a full disk" sh -c "./bellkettle $words >/dev/full"
    fails 'standard output: not all could be written there; '
done
try 'a text typed at a terminal' sh -c 'printf "\004" | script -qec "./bellkettle report --text" /dev/null'
ends 1
grep -q '^bellkettle: standard input: a text is awaited here' "$room/out" || wrong 'to be told that a text is awaited'
grep -q "^bellkettle: standard input:1:1: expected 'task'" "$room/out" || wrong "to be told that 'task' is expected"
leaves_nothing

echo "texts: $tried uses as they should be"
