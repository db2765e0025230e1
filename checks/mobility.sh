#!/bin/sh
# Compares the steps of a handset's 5GMM, through the program machine_probe, with the executable model that NAS_MODEL names, on random
# walks: what goes to a handset's sessions and comes from them, timers that no procedure has, and counts near their end, which
# handset.sh doesn't reach. A difference ends with status 1; where the program isn't built, no model is there or python3 is missing,
# nothing is compared, with status 0.
#
# usage: checks/mobility.sh [WALKS [SEED]]
cd "$(dirname "$0")/.." || exit 1
probe=${NAS_MACHINE_PROBE:-crates/machine_probe/out/machine_probe}
if [ ! -x "$probe" ]; then
    echo "mobility: skipped, $probe isn't built (rt run in crates/machine_probe builds it)"
    exit 0
fi
if [ -z "${NAS_MODEL:-}" ] || [ ! -f "$(dirname "$NAS_MODEL")/nas_ue.py" ]; then
    echo "mobility: skipped, NAS_MODEL names no model"
    exit 0
fi
if ! command -v python3 >/dev/null || ! python3 -c 'import cryptography' 2>/dev/null; then
    echo "mobility: skipped, python3 or its package cryptography is missing"
    exit 0
fi
exec python3 checks/mobility.py "$NAS_MODEL" "$probe" "$@"
