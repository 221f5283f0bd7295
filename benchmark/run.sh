#!/usr/bin/env bash
# The proved library's speed, in one run: bash benchmark/run.sh [ROUNDS]
#
# It builds the library, the second program (opt-level 3) and, where Debian's libosmocore-dev is installed, a shim for libosmogsm (-O3);
# checks that all of them give the same bytes for the same keys, RANDs and SQN, the GSM keys of 10,000 vectors among them; then times them
# in turn, round by round, and prints medians and ratios. Ratios hold from one machine to another better than times; nothing else should
# run beside it.
#
# A call of the library reads an image, checks all that it is lent, and writes the image. The second program is timed on its records, which
# costs it no image, and with its own images. libosmogsm keeps a record in memory; osmo_auth_gen_vec, its public function, also derives the
# GSM keys, so the function behind it, which doesn't, is timed too where the library has it.
# A card's image is timed in each edition: an accepted challenge, and reading and writing alone, as far as the interface can show them: a
# challenge that is refused behind the reading, and a new card.
# At the end stands the bench program beside the second program's (bench.sh).
set -euo pipefail
cd "$(dirname "$0")/.."
rounds=${1:-9}

(cd crates/vetrhoss && rt lib) >&2
work=$(mktemp -d)
trap 'rm -rf "$work"' EXIT

echo "load before the run: $(cut -d ' ' -f 1-3 /proc/loadavg) on $(nproc) processors"
peer=()
if pkg-config --exists libosmogsm 2> "$work/log"; then
    read -ra flags <<< "$(pkg-config --cflags --libs libosmogsm)"
    cc -O3 -shared -fPIC -o "$work/peer.so" benchmark/peer.c "${flags[@]}"
    peer=("$work/peer.so")
    echo "libosmogsm $(pkg-config --modversion libosmogsm): one RAND a call, no image; osmo_auth_gen_vec also derives the GSM keys"
else
    echo "libosmogsm is not installed (Debian: libosmocore-dev) and is left out"
fi
cargo run --quiet --release --offline --manifest-path benchmark/Cargo.toml -- "$rounds" "${peer[@]}"

echo
bash benchmark/bench.sh
