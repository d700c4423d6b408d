#!/bin/bash
# The wave memory and the real Rust on the same calls; oracle/README.md says what is compared.
#   oracle/differential.sh bounded [SEED]            about a minute
#   oracle/differential.sh full [SEED]
#   oracle/differential.sh replay GROUP SEED ITEM    one item again, by the words of a mismatch
#   oracle/differential.sh calls <CALLS              recordings in the form of `oracle recordings`
# Ends with status 77, the reason in its last line, where the Rust's sources, cargo or the packages are not there.
set -euo pipefail

root=$(cd "$(dirname "$0")/.." && pwd)
build=$root/target/oracle
mkdir -p "$build"

# logged NAME COMMAND ..: what it writes is kept, and shown where it fails.
logged() {
    local log=$build/$1.log
    shift
    "$@" >"$log" 2>&1 || {
        local status=$?
        cat "$log"
        exit $status
    }
}

logged packages "$root/oracle/build.sh" packages

logged library "$root/bindings/library"
logged build env ORACLE_BUILD="$build" WEJUMO_LIB="$root/target/staticlib" "$root/oracle/build.sh"
grep -E '^[-+][^-+]' "$build/build.log" # what differs from the Rust's sources
exec "$build/differential" "$@"
