# What the scripts say to people: on standard error, under the project's name.

say() { printf 'bellkettle: %s\n' "$*" >&2 || true; }

stop() { # something outside went wrong
    say "$@"
    exit 3
}
