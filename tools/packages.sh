# tools/kit.sh for the gate and the tests, which install what they need. Nothing else installs anything.
. "${root:-.}/tools/kit.sh"

need() { # COMMAND PACKAGE..: installs Debian's packages where the command is missing
    command -v "$1" >/dev/null && return
    shift
    apt-get update -qq && apt-get install -y -qq --no-install-recommends "$@" >/dev/null
}
