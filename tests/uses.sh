# For scripts that try the launcher as people meet it: `try` keeps what a command prints and says and how it ends, the others hold that to
# what is expected. $room is a folder of the script's own that goes when it ends.
room=$(mktemp -d)
trap 'rm -rf "$room"' EXIT
trap 'exit 1' HUP INT TERM
chmod 755 "$room"
mkdir -m 1777 "$room/tmp"
export TMPDIR="$room/tmp"
tried=0

wrong() {
    echo "$0: $what: $*"
    printf 'status %s, standard output:\n' "$status" && cat "$room/out"
    echo 'standard error:' && cat "$room/err"
    exit 1
}

try() { # WHAT COMMAND..: its output, messages and status are kept
    what=$1 status=0
    shift
    "$@" >"$room/out" 2>"$room/err" || status=$?
    tried=$((tried + 1))
}
ends() { [ "$status" -eq "$1" ] || wrong "status $1 expected"; }
prints() { cmp -s "$room/out" "$1" || wrong "the output of $1 expected"; }
prints_nothing() { [ ! -s "$room/out" ] || wrong 'no output expected'; }
says() { grep -q -- "$1" "$room/err" || wrong "the message '$1' expected"; }
says_nothing() { [ ! -s "$room/err" ] || wrong 'no message expected'; }
refuses_use() { # MESSAGE
    ends 2 && prints_nothing && says "^bellkettle: $1" && says "'bellkettle help"
}
fails() { # MESSAGE: one line that begins so
    ends 3 && prints_nothing && says "^bellkettle: $1"
    [ "$(wc -l <"$room/err")" -eq 1 ] || wrong 'one line expected'
}
leaves_nothing() { [ -z "$(ls -A "$TMPDIR")" ] || wrong "left behind: $(ls -A "$TMPDIR")"; }
