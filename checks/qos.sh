#!/bin/sh
# Compares nas_qos, through the program nas_probe, with the executable model that NAS_MODEL names: lists of operations that are read and
# written, and lists that are applied in turn, on random operations and on octets that are changed a little. A difference ends with
# status 1; where the program isn't built, no model is there or python3 is missing, nothing is compared, with status 0.
#
# usage: checks/qos.sh [LINES [SEED]]
cd "$(dirname "$0")/.." || exit 1
probe=${NAS_PROBE:-crates/nas_probe/out/nas_probe}
if [ ! -x "$probe" ]; then
    echo "qos: skipped, $probe isn't built (rt run in crates/nas_probe builds it)"
    exit 0
fi
if [ -z "${NAS_MODEL:-}" ] || [ ! -f "$(dirname "$NAS_MODEL")/nas_codec.py" ]; then
    echo "qos: skipped, NAS_MODEL names no model"
    exit 0
fi
if ! command -v python3 >/dev/null; then
    echo "qos: skipped, python3 is missing"
    exit 0
fi
exec python3 checks/qos.py "$NAS_MODEL" "$probe" "$@"
