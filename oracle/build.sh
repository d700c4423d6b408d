#!/bin/bash
# Builds the oracle: the Rust sources of the crate wellen, two edits, a driver
# and stand-ins. Prints every difference between the sources and their copy.
#   WELLEN_SRC      folder that holds the sources' src (default: beside the repository)
#   ORACLE_BUILD    build folder, made anew but for its target folder
#                   (default: the repository's target/oracle)
#   ORACLE_COPY     if it is set, only the copy is made, and nothing is built
#   WEJUMO_LIB      folder of the wave memory's static library; if it is set, the
#                   program that compares the two is built too
# The program is then ORACLE_BUILD/oracle, the other ORACLE_BUILD/differential.
# Ends with status 77 where the sources, cargo or the packages are not there;
# with the word `packages`, this is all that it looks for.
set -euo pipefail

here=$(cd "$(dirname "$0")" && pwd)
source=${WELLEN_SRC:-$here/../../shared/docs/src}/src
build=${ORACLE_BUILD:-$here/../target/oracle}

fail() {
    echo "build.sh: $*" >&2
    exit 1
}

missing() {
    echo "$*" >&2
    exit 77
}

[ -f "$source/wavemem.rs" ] || missing "no wavemem.rs in $source (set WELLEN_SRC)"
command -v cargo >/dev/null || missing "no cargo"

# Packages.

packages='librust-indexmap-dev librust-memmap2-dev librust-miniz-oxide-dev
    librust-num-enum-dev librust-rayon-dev librust-rustc-hash-dev
    librust-smallvec-dev librust-thiserror-dev'
wanted=
for package in $packages; do
    dpkg-query -W -f '${Status}' "$package" 2>/dev/null | grep -q 'ok installed' ||
        wanted="$wanted $package"
done
install_wanted() {
    DEBIAN_FRONTEND=noninteractive \
        timeout 100 apt-get install -y -qq --no-install-recommends $wanted >/dev/null
}
if [ -n "$wanted" ]; then
    echo "installing$wanted"
    install_wanted 2>&1 || { timeout 100 apt-get update -qq && install_wanted; } || missing "packages missing:$wanted"
fi
registry=$(dpkg -L librust-smallvec-dev | sed -n '\|/cargo/registry$|p')
[ -d "$registry" ] || missing "Debian's registry folder not found"
[ "${1-}" != packages ] || exit 0

# The copy.

mkdir -p "$build"
build=$(cd "$build" && pwd)
rm -rf "$build/src" "$build/standins" "$build/wejumo" "$build/.cargo" "$build/Cargo.lock" \
    "$build/oracle" "$build/differential"
cp -R "$source" "$build/src"
chmod -R u+w "$build/src"
cp "$here/Cargo.toml" "$build/"
mkdir "$build/standins" "$build/wejumo" "$build/.cargo"
cp -R "$here/../bindings/rust/." "$build/wejumo/"
cp -R "$here/standins/fst-reader" "$here/standins/leb128" "$here/standins/lz4_flex" \
    "$here/standins/rustc-hash" "$build/standins/"

# edit FILE OLD NEW: puts NEW for OLD, which must stand there exactly once.
# Neither has a character that means something to sed.
edit() {
    local count
    count=$({ grep -oF -- "$2" "$build/src/$1" || true; } | wc -l)
    [ "$count" -eq 1 ] || fail "$1: '$2' found $count times, not once"
    sed -i "s|$2|$3|" "$build/src/$1"
}

# append FILE LINE: LINE must not stand there yet.
append() {
    ! grep -qxF -- "$2" "$build/src/$1" || fail "$1: already has '$2'"
    echo "$2" >>"$build/src/$1"
}

edit wavemem.rs 'const SKIP_COMPRESSION: bool = false;' 'const SKIP_COMPRESSION: bool = true;'
edit wavemem.rs 'BlockTimeIdx::MAX as usize' 'oracle::block_limit() as usize'
append wavemem.rs 'pub mod oracle;'
append signal/mod.rs 'pub(crate) mod oracle;'
append lib.rs 'pub use wavemem::oracle;'

# The edits must be all that differs.
difference=$(diff -ru "$source" "$build/src" || true)
echo "$difference"
removed=$(grep -c '^-[^-]' <<<"$difference" || true)
added=$(grep -c '^+[^+]' <<<"$difference" || true)
[ "$removed $added" = '2 5' ] ||
    fail "$removed lines removed and $added added, not 2 and 5"

# New files; none may take the place of a source.

add() {
    [ ! -e "$build/src/$2" ] || fail "the sources have $2, no stand-in is needed"
    mkdir -p "$(dirname "$build/src/$2")"
    cp "$here/$1" "$build/src/$2"
}

add driver/main.rs bin/oracle.rs
add driver/wavemem.rs wavemem/oracle.rs
add driver/parts.rs wavemem/oracle/parts.rs
add driver/recordings.rs wavemem/oracle/recordings.rs
add driver/whole.rs wavemem/oracle/whole.rs
add driver/signal.rs signal/oracle.rs
for module in "$here"/driver/differential/*.rs; do
    add "driver/differential/${module##*/}" "bin/differential/${module##*/}"
done
add standins/modules/ghw.rs ghw.rs
add standins/modules/simple.rs simple.rs
add standins/modules/stream.rs stream.rs
add standins/modules/viewers.rs viewers.rs
add standins/modules/signal_map.rs signal/map.rs

# The build: no network, crates from Debian's folder.

cat >"$build/.cargo/config.toml" <<END
[source.crates-io]
replace-with = "debian"
[source.debian]
directory = "$registry"
END
[ -z "${ORACLE_COPY-}" ] || exit 0
features=
if [ -n "${WEJUMO_LIB-}" ]; then
    features='--features differential'
    WEJUMO_LIB=$(cd "$WEJUMO_LIB" && pwd)
    export WEJUMO_LIB
fi
(cd "$build" && cargo build --quiet --offline --bins $features --target-dir "$build/target")
cp "$build/target/debug/oracle" "$build/oracle"
"$build/oracle" selftest
echo "built $build/oracle"
if [ -n "$features" ]; then
    cp "$build/target/debug/differential" "$build/differential"
    echo "built $build/differential"
fi
