#!/usr/bin/env bash
# Compares the engine with the reference under valgrind, which sees reading and writing beyond a buffer, on inputs and on calls, those
# that write included, tries the laws, and plays lists of calls. All are those of the tests, fewer of them. Then tests the host program under
# it. SYNC_INPUTS sets the number of inputs, SYNC_BORDERS that of calls at each border, SYNC_LISTS that of lists, SYNC_SEED the seed,
# SYNC_ENGINE_LIB the folder of the engine's library.
set -euo pipefail
export SYNC_ENGINE_LIB SYNC_INPUTS SYNC_BORDERS SYNC_LISTS
SYNC_ENGINE_LIB=$(realpath -m "${SYNC_ENGINE_LIB:-$(dirname "${BASH_SOURCE[0]}")/../target/staticlib}")
SYNC_INPUTS=${SYNC_INPUTS:-40000}
SYNC_BORDERS=${SYNC_BORDERS:-4000}
SYNC_LISTS=${SYNC_LISTS:-400}
cd "$(dirname "${BASH_SOURCE[0]}")"
PATH="$PATH:$HOME/.cargo/bin"

echo "valgrind: building"
cargo build --quiet --release --offline --locked --bin inputs
echo "valgrind: $SYNC_INPUTS inputs, calls of each row likewise, $SYNC_BORDERS calls at each border, and $SYNC_LISTS lists of calls, under memcheck"
valgrind --quiet --tool=memcheck --leak-check=full --error-exitcode=1 target/release/inputs
echo "valgrind: the host program under memcheck"
export COLLECTOR_UNDER="valgrind --quiet --tool=memcheck --leak-check=full --error-exitcode=99"
./try-host
./try-scan
echo "valgrind: no errors"
