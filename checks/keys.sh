#!/bin/sh
# Compares the calls of key_chain, through the program nas_probe, with Python's hmac on random arguments. A difference ends with
# status 1; where the program isn't built or python3 is missing, nothing is compared, with status 0.
#
# usage: checks/keys.sh [ROUNDS [SEED]]
cd "$(dirname "$0")/.." || exit 1
probe=${NAS_PROBE:-crates/nas_probe/out/nas_probe}
if [ ! -x "$probe" ]; then
    echo "keys: skipped, $probe isn't built (rt run in crates/nas_probe builds it)"
    exit 0
fi
if ! command -v python3 >/dev/null; then
    echo "keys: skipped, python3 is missing"
    exit 0
fi
exec python3 checks/keys.py "$probe" "$@"
