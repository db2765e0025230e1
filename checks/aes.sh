#!/bin/sh
# Compares the calls of aes_cmac, through the program nas_probe, with Python's package `cryptography` on random arguments.
# A difference ends with status 1; where the program isn't built or the package is missing, nothing is compared, with status 0.
#
# usage: checks/aes.sh [LINES [SEED]]
cd "$(dirname "$0")/.." || exit 1
probe=${NAS_PROBE:-crates/nas_probe/out/nas_probe}
if [ ! -x "$probe" ]; then
    echo "aes: skipped, $probe isn't built (rt run in crates/nas_probe builds it)"
    exit 0
fi
if ! python3 -c 'import cryptography' 2>/dev/null; then
    echo "aes: skipped, Python's package cryptography is missing"
    exit 0
fi
exec python3 checks/aes.py "$probe" "$@"
