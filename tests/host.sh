#!/bin/sh
# A program in C, linked with the library that the kit writes, calls each of its functions and checks document 01's sheets, with what
# documents 01 and 02 say of them.
set -eu
cd "$(dirname "$0")/.."
room=$(mktemp -d)
trap 'rm -rf "$room"' EXIT

. tools/packages.sh
need cc gcc libc6-dev
(cd crates/bellkettle && rt lib) >"$room/library" 2>&1 || { cat "$room/library" && exit 1; }
cc -std=c11 -Wall -Wextra -Wconversion -Werror -O2 -static -Iinclude tests/host.c crates/bellkettle/out/libbellkettle.a -o "$room/host"
"$room/host"
