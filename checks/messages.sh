#!/bin/sh
# Compares the 5GMM and 5GSM messages as they are read, written and shown, through the program nas_probe, with the executable model that NAS_MODEL names, on
# messages that are changed a little, with elements behind them, and on random octets. A difference ends with status 1; where the program isn't built,
# no model is there or python3 is missing, nothing is compared, with status 0.
#
# usage: checks/messages.sh [LINES [SEED]]
cd "$(dirname "$0")/.." || exit 1
probe=${NAS_PROBE:-crates/nas_probe/out/nas_probe}
if [ ! -x "$probe" ]; then
    echo "messages: skipped, $probe isn't built (rt run in crates/nas_probe builds it)"
    exit 0
fi
if [ -z "${NAS_MODEL:-}" ] || [ ! -f "$(dirname "$NAS_MODEL")/nas_codec.py" ]; then
    echo "messages: skipped, NAS_MODEL names no model"
    exit 0
fi
if ! command -v python3 >/dev/null; then
    echo "messages: skipped, python3 is missing"
    exit 0
fi
exec python3 checks/messages.py "$NAS_MODEL" "$probe" "$@"
