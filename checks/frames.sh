#!/bin/sh
# Compares the calls of nas_security, through the program nas_probe, with Python's package `cryptography` and its hmac on random
# contexts, messages and changed frames. A difference ends with status 1; where the program isn't built or the package is
# missing, nothing is compared, with status 0.
#
# usage: checks/frames.sh [ROUNDS [SEED]]
cd "$(dirname "$0")/.." || exit 1
probe=${NAS_PROBE:-crates/nas_probe/out/nas_probe}
if [ ! -x "$probe" ]; then
    echo "frames: skipped, $probe isn't built (rt run in crates/nas_probe builds it)"
    exit 0
fi
if ! python3 -c 'import cryptography' 2>/dev/null; then
    echo "frames: skipped, Python's package cryptography is missing"
    exit 0
fi
exec python3 checks/frames.py "$probe" "$@"
