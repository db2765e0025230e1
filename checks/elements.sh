#!/bin/sh
# Compares the readers and writers of nas_elements, through the program nas_probe, with the executable model that NAS_MODEL names, on
# random octets and on octets of values that are changed a little. A difference ends with status 1; where the program isn't built,
# no model is there or python3 is missing, nothing is compared, with status 0.
#
# usage: checks/elements.sh [LINES [SEED]]
cd "$(dirname "$0")/.." || exit 1
probe=${NAS_PROBE:-crates/nas_probe/out/nas_probe}
if [ ! -x "$probe" ]; then
    echo "elements: skipped, $probe isn't built (rt run in crates/nas_probe builds it)"
    exit 0
fi
if [ -z "${NAS_MODEL:-}" ] || [ ! -f "$(dirname "$NAS_MODEL")/nas_codec.py" ]; then
    echo "elements: skipped, NAS_MODEL names no model"
    exit 0
fi
if ! command -v python3 >/dev/null; then
    echo "elements: skipped, python3 is missing"
    exit 0
fi
exec python3 checks/elements.py "$NAS_MODEL" "$probe" "$@"
