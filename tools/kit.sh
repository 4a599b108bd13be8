# For scripts that build programs, all for x86-64 Linux, as the kit is. Sets $kit, the kit's folder, and puts its command rt on the path.
. "${root:-.}/tools/say.sh"

need() { # COMMAND PACKAGE..: stops where the command is missing
    command -v "$1" >/dev/null && return
    missing=$1
    shift
    stop "$missing is not found: install Debian's $*"
}

[ -z "${RATTLE_HOME:-}" ] || PATH=$RATTLE_HOME/bin:$PATH
command -v rt >/dev/null || stop "kit not found: install the Rattle kit, then put the folder of its command rt on the PATH or set RATTLE_HOME to the kit's folder"
kit=${RATTLE_HOME:-$(dirname "$(dirname "$(readlink -f "$(command -v rt)")")")}
[ -e "$kit/KIT-ID" ] && [ -x "$kit/bin/rt" ] || stop "kit not found: $kit has no bin/rt or no KIT-ID; set RATTLE_HOME to a Rattle kit"

instructions() { # WORD..: how many this command takes; what it writes is dropped
    valgrind --tool=callgrind --callgrind-out-file=/dev/null "$@" 2>&1 >/dev/null | sed -n 's/.*Collected : //p'
}
