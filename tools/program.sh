# The programs of this repository, for the scripts that run them: `ready NAME` sees that one stands there proved and built, `become
# NAME` runs it. The script has set $root, the repository, and gets $room, a folder of its own that goes when it ends.
. "$root/tools/say.sh"
LC_ALL=C
export LC_ALL

room='' yard='' building='' failed=''
clean() {
    [ -z "$building" ] || abandon
    rm -rf ${room:+"$room"} ${yard:+"$yard"}
}
ended_by() { # SIGNAL: cleans, and ends as the signal would have ended the script
    trap '' HUP INT TERM
    [ ! -t 2 ] || echo >&2
    [ -z "$building" ] || say "interrupted with $shown of $total crates proved; nothing half built stays, and the next run proves the others"
    clean
    trap - EXIT "$1"
    kill -s "$1" $$
}
trap clean EXIT
trap 'ended_by HUP' HUP
trap 'ended_by INT' INT
trap 'ended_by TERM' TERM
room=$(mktemp -d 2>/dev/null) || stop "${TMPDIR:-/tmp}: no temporary folder can be made there; set TMPDIR to a folder that may be written"

become() { # NAME: with the script's standard input and output
    exec "$root/target/bin/$1"
}

ready() { # NAME: proves and builds it unless it stands there, built by this kit from the sources as they are
    of_program "$1"
    ! is_current || return 0
    mkdir -p "$root/target" 2>/dev/null && [ -w "$root/target" ] && [ -w "$root/crates.txt" ] && [ -w "$root/crates/$1" ] ||
        stop "$root: $1 has to be proved and built anew, and you may not write this folder; have its owner run this once, or copy the folder"
    need setsid util-linux
    need flock util-linux
    need python3 python3
    # A lock on a file that is there anyway, so that none is left; a build that outlives this script still holds it.
    exec 9>>"$root/crates.txt"
    waits=''
    until take_lock; do
        [ -n "$waits" ] || say "another run is building in $root; waiting for it to end"
        waits=yes
        sleep 0.5
    done
    is_current || build "$1"
    exec 9>&-
}

of_program() { # NAME: where it is kept, what it was built from, and the crates that it needs
    . "$root/tools/kit.sh"
    program=$root/target/bin/$1 record=$root/target/built/$1
    crates=$(crates_of "$1")
}

take_lock() { # fails only while another has it: on a disk that knows no locks a build goes on without
    flock -n -E 75 9 2>/dev/null || [ $? -ne 75 ]
}

crates_of() { # NAME: it and every crate of the repository that it needs, each after those that it uses
    awk -v name="$1" '
        { sub(/#.*/, "") }
        split($0, side, ":") == 2 { split(side[1], head); needs[head[1]] = side[2] }
        function visit(crate, each, k, n) {
            if (!(crate in needs) || seen[crate]++) return
            n = split(needs[crate], each)
            for (k = 1; k <= n; k++) visit(each[k])
            print crate
        }
        END { visit(name) }' "$root/crates.txt"
}

# Which sources a program was built from is told by what is in them, not by their times: those of a checkout mean nothing.
is_current() {
    sum=$(
        cd "$root"
        {
            cat "$kit/KIT-ID" crates.txt
            for crate in $crates; do
                find "crates/$crate" -name out -prune -o -type f \( -name '*.rt' -o -name '*.antt' \) -exec sha256sum {} + 2>/dev/null
            done | sort
        } | sha256sum
    )
    [ -x "$program" ] && [ "$(cat "$record" 2>/dev/null)" = "$sum" ]
}

keep() { # NAME: what stands built of it in its crate's folder is the program that is run from here on
    mkdir -p "$root/target/bin" "$root/target/built"
    rm -f "$record"
    cp "$root/crates/$1/out/$1" "$program.new"
    mv "$program.new" "$program"
    echo "$sum" >"$record.new"
    mv "$record.new" "$record"
}

build() { # NAME
    total=$(echo "$crates" | wc -l) shown=0 began=$(date +%s)
    say "proving and building $1 from $total crates; the first time this takes some minutes"
    yard=$(mktemp -d)
    rm -f "$record"
    : >"$yard/said"
    # shellcheck disable=SC2086
    (TMPDIR=$yard exec setsid "$root/tools/prove" $crates) >"$yard/said" 2>&1 </dev/null 3<&- &
    child=$! building=$1
    while kill -0 "$child" 2>/dev/null; do
        progress
        sleep 0.3
    done
    progress
    [ ! -t 2 ] || printf '\r%60s\r' '' >&2
    wait "$child" || not_built "$1" $?
    building=''
    keep "$1"
    say "$1 is proved and built, in $(($(date +%s) - began)) s"
}

progress() { # how far a build is: a line for each crate that was proved since the last call, on a terminal one line that moves
    count=0
    for crate in $(sed -n 's/^proved //p' "$yard/said"); do
        count=$((count + 1))
        [ -t 2 ] || [ "$count" -le "$shown" ] || say "$crate is proved, $count of $total"
    done
    shown=$count
    [ ! -t 2 ] || printf '\rbellkettle: %d of %d crates proved, %d s ' "$count" "$total" $(($(date +%s) - began)) >&2
}

not_built() { # NAME STATUS: says which crate failed, and where to read on
    tail -n 1 "$yard/said" >"$yard/last"
    read -r what crate ended command <"$yard/last" || true
    log=$root/target/log/$crate.out
    case $what in
    refused)
        say "crate $crate is not proved, so $1 is not built; $log says why:"
        { grep -E ': error: |^error|^fn [^ ]*: (not proved|no proof: expected)' "$log" || tail -n 8 "$log"; } | head -n 8
        ;;
    differs)
        say "crate $crate is proved, and its program did not print what it must, crates/$crate/stdout; it said at last"
        tail -n 8 "$log"
        ;;
    stopped)
        say "'$command' in $root/crates/$crate ended with status $ended, and said at last"
        tail -n 8 "$log"
        ;;
    *)
        say "'tools/prove' in $root ended with status $2, and said at last"
        tail -n 8 "$yard/said"
        ;;
    esac 2>&1 | cut -c 1-200 >&2 || true
    [ "$what" != refused ] || failed=$crate
    exit 3
}

# Ends a build that has not ended well. No process of it goes on; of crates that are not proved only the log of one that failed stays, and what
# rt keeps of the work done, which is no library and no program.
abandon() {
    kill -s TERM -- "-$child" 2>/dev/null || true
    for moment in 1 2 3 4 5 6 7 8 9; do
        kill -0 -- "-$child" 2>/dev/null || break
        sleep 0.1
    done
    kill -s KILL -- "-$child" 2>/dev/null || true
    for crate in $crates; do
        out=$root/crates/$crate/out
        rm -rf "$out"/rt-work-*
        if [ -e "$root/crates/$crate/src/main.rt" ]; then
            [ -e "$out/$crate.stamp" ] || rm -f "$out/$crate" "$out/$crate.o"
        elif [ ! -e "$out/rlib/stamp" ]; then
            rm -rf "$out/rlib"
        else
            continue
        fi
        rmdir "$out" 2>/dev/null || true
        [ "$crate" = "$failed" ] || rm -f "$root/target/log/$crate".*
    done
    rmdir "$root/target"/* "$root/target" 2>/dev/null || true
}
