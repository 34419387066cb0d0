#!/bin/sh
# Proves and builds the static library and copies it to the folder that is named. host/build.rs runs this.
CDPATH= cd -- "$(dirname -- "$0")/.." || exit 2
if ! command -v rt > /dev/null; then
    echo "there is no rt here: install the Rattle toolchain, or let CAGVOST_LIB name a folder that has libcagvost.a" >&2
    exit 2
fi
. commands/lock.sh
# The copy matters: rt ci removes what is built, and cargo would not build again for that.
sh commands/prove.sh cagvost && cp crates/cagvost/out/libcagvost.a "$1"
