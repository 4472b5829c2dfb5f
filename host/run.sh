#!/bin/sh
# Builds the hosts in C and in Rust against the archive, lets each list every example sheet, an empty one and one that is
# too long, and compares what they print with the program `windows`. Compilers that are not there are passed over; with none
# at all this fails.
set -eu
cd "$(dirname "$0")/.."

out=target/host
archive=$out/libpoychare.a
windows=crates/windows/out/windows
mkdir -p "$out"
(cd crates/windows && rt run <../../sheets/worked.sheet)
(cd crates/poychare_c && rt lib)
cp crates/poychare_c/out/libpoychare_c.a "$archive"
head -c 16385 /dev/zero >"$out/too_long.sheet"
: >"$out/empty.sheet"

hosts=
built() {
    hosts="$hosts $1"
}
for compiler in gcc clang; do
    command -v "$compiler" >/dev/null || continue
    "$compiler" -std=c11 -Wall -Wextra -Werror -O2 -o "$out/c_$compiler" host/host.c "$archive"
    built "c_$compiler"
    "$compiler" -std=c11 -g -fsanitize=address,undefined -fno-sanitize-recover=all \
        -o "$out/c_${compiler}_sanitized" host/host.c "$archive"
    built "c_${compiler}_sanitized"
done
if command -v rustc >/dev/null; then
    rustc --edition 2024 -O -o "$out/rust" host/host.rs -C link-arg="$archive"
    built rust
fi

if [ -z "$hosts" ]; then
    echo "host: no compiler found, nothing was run" >&2
    exit 1
fi

runs=0
for sheet in sheets/*.sheet "$out"/*.sheet; do
    "$windows" <"$sheet" >"$out/expected"
    for host in $hosts; do
        "$out/$host" "$sheet" >"$out/printed"
        cmp "$out/expected" "$out/printed"
        runs=$((runs + 1))
    done
done
echo "host: the same listing in $runs runs by:$hosts"
