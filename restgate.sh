#!/bin/sh
# Runs restgate with these words and these streams: the proved program where it is built from these sources, and otherwise the
# toolchain's checked build, which is slow but starts within a minute. `./restgate.sh build` proves and builds the program.
set -eu
crates=$(cd "$(dirname "$0")/crates" && pwd)
program="$crates/restgate/out/restgate"

is_built() {
    [ -x "$program" ] || return 1
    newer=$(find "$crates" -name out -prune -o \( -name '*.rt' -o -name '*.antt' \) -newer "$program" -print | head -n 1)
    [ -z "$newer" ]
}

if [ "$*" = build ]; then
    is_built && exit 0
    echo "restgate: proving and building the program and the crates below it, which takes some minutes" >&2
    cd "$crates/restgate"
    rt run -- session probe:1 </dev/null >&2 || exit 70
    exit 0
fi
if is_built; then
    exec "$program" "$@"
fi
echo "restgate: not proved and built here (./restgate.sh build does it); running the checked build" >&2
cd "$crates/restgate"
exec rt try -- "$@"
