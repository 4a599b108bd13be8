# Sheets typed as text, for the commands of the launcher: where one takes a sheet by `take_sheet` it takes a text too. $text says that the
# option --text was given.

take_sheet() { # [FILE]: the sheet that the command is to read; of a text the bytes of its sheet
    [ -z "$text" ] || awaited=text
    take "$@"
    ! is_text || pack
}

is_text() { # what was taken, by the option or by the end of its name
    [ -n "$text" ] || case $name in *.[tT][xX][tT]) ;; *) false ;; esac
}

pack() { # what was taken is a text, and becomes the bytes of its sheet
    run pack
    [ -s "$room/answer" ] || leave_mistaken
    mv "$room/answer" "$room/input"
}

leave_mistaken() { # says what is wrong with the text and where, and ends
    read -r kind number _ line _ column <"$room/why" || true
    case $kind in
    mistake) words=$(expected "$number") ;;
    refused) words="refused $number: $(in_words "$number" '' '')" ;;
    *) no_answer pack ;;
    esac
    say "$name:$line:$column: $words"
    mark "$line" "$column" >&2 || true
    leave 1
}

expected() { # MISTAKE: in words
    case $1:$(head -c 3 "$room/input" | od -An -tx1) in
    '1: ef bb bf' | '1: ff fe'* | '1: fe ff'*)
        echo 'the file begins with a byte order mark, which editors do not show; save it as plain text without one'
        ;;
    *)
        because=$(sed -n "s/^| $1 | \(.*\) | \(.*\) |\$/expected \1; \2/p" "$root/tools/mistakes.txt")
        echo "${because:-mistake $1}"
        ;;
    esac
}

# A tab stays one in both lines, and a letter of several bytes has one place. What a terminal would act on is shown as a question mark.
mark() { # LINE COLUMN: prints the line, and under the place a mark; of a long line what stands around it
    skipped=0
    [ "$2" -le 100 ] || skipped=$(($2 - 60))
    part=$(sed -n "$1{p;q;}" "$room/input" | tail -c +$((skipped + 1)) | head -c 120 | tr '\r' ' ' | tr '\000-\010\013-\037\177' '[?*]')
    front=$(printf %s "$part" | head -c $(($2 - skipped - 1)) | tr -d '\200-\277' | tr -c '\t' ' ')
    printf '    %s\n    %s^\n' "$part" "$front"
}
