#!/bin/sh
# Compares the wire with a plain Rust program over the crate httparse on the same bytes, by
# compare.py. Needs valgrind, cargo, and Debian's packages librust-httparse-dev, librust-itoa-dev,
# librust-serde-dev and librust-serde-json-dev. From any folder: sh bench/wire.sh
set -e
cd "$(dirname "$0")/.."

# Runs a command, and shows what it wrote only where it fails.
quietly() {
    log=$(mktemp)
    "$@" > "$log" 2>&1 || { cat "$log" >&2; rm "$log"; exit 1; }
    rm "$log"
}

for package in httparse itoa serde serde_json; do
    if ! ls -d /usr/share/cargo/registry/$package-[0-9]* > /dev/null 2>&1; then
        echo "wire.sh: there is no $package in /usr/share/cargo/registry:" \
            "apt-get install librust-httparse-dev librust-itoa-dev librust-serde-dev librust-serde-json-dev" >&2
        exit 1
    fi
done
(cd crates/bench_wire && quietly rt run -- frames 1)
(cd bench/plain && quietly cargo build --release --offline)
python3 bench/compare.py crates/bench_wire/out/bench_wire bench/plain/target/release/plain
