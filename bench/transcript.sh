#!/usr/bin/env bash
# Times `nas run` on scripts of 4,096, 16,384 and 65,536 events: a registration, and then mobility registrations one after the other,
# in each of which two messages are delivered twice and the last one is lost every third time. The time should grow as the number of
# events does. Memory is the most that the program had, where GNU time tells it. Below
# stands what 16,384 events take where the network has 64 subscribers, of which the handset's is the last: no event copies an end, so
# what still grows is the walks that find a subscriber.
#
# usage: bench/transcript.sh
cd "$(dirname "$0")/.." || exit 1
program=${NAS:-crates/nas_cli/out/nas_cli}
[ -x "$program" ] || { echo "$program is not built: run rt ci, or ./nas once"; exit 1; }
folder=$(mktemp -d)
trap 'rm -rf "$folder"' EXIT
TIMEFORMAT=%R

# A script of so many events. Each turn has four uplinks and three downlinks.
script() {
    awk -v events="$1" 'BEGIN {
        print "random 000102030405060708090a0b0c0d0e0f"
        for (n = 1; n < events; turn++) {
            u = 4 * turn; d = 3 * turn
            split("", lines)
            lines[1] = turn ? "register mobility" : "register"
            lines[2] = "to-net " u + 1; lines[3] = "to-net " u + 1; lines[4] = "to-ue " d + 1
            lines[5] = "to-net " u + 2 ; lines[6] = "to-ue " d + 2; lines[7] = "to-net " u + 3; lines[8] = "to-ue " d + 3
            lines[9] = turn % 3 == 2 ? "to-ue " d + 3 : "to-net " u + 4; lines[10] = "to-net " u + 3
            for (i = 1; i <= 10 && n < events; i++) { print lines[i]; n++ }
        }
    }'
}

# The configuration with so many subscribers before the handset's.
configuration() {
    awk -v others="$1" '
        /^\[\[subscriber\]\]/ { first = NR }
        /^\[\[handset\]\]/ { last = NR }
        { line[NR] = $0 }
        END {
            for (i = 1; i < first; i++) print line[i]
            for (n = 1; n <= others; n++)
                for (i = first; i < last; i++) {
                    text = line[i]
                    if (text ~ /^supi/) sub(/[0-9][0-9][0-9][0-9]"/, sprintf("%04d\"", 5000 + n), text)
                    print text
                }
            for (i = first; i <= NR; i++) print line[i]
        }' examples/registration.toml
}

# The least time of three runs with a configuration.
least() {
    for _ in 1 2 3; do
        { time "$program" run "$1" "$folder/script" >"$folder/out"; } 2>&1
    done | sort -n | head -n 1
}

printf '%-8s %10s %12s %12s %12s\n' events seconds 'a second' 'octets out' 'memory, KB'
for events in 4096 16384 65536; do
    script "$events" >"$folder/script"
    best=$(least examples/registration.toml)
    memory=-
    if [ -x /usr/bin/time ]; then
        memory=$(/usr/bin/time -f %M "$program" run examples/registration.toml "$folder/script" 2>&1 >/dev/null | tail -n 1)
    fi
    printf '%-8s %10s %12s %12s %12s\n' "$events" "$best" "$(awk -v n="$events" -v t="$best" 'BEGIN { print int(n / (t + 0.000001)) }')" \
        "$(stat -c %s "$folder/out")" "$memory"
done

script 16384 >"$folder/script"
configuration 0 >"$folder/one.toml"
configuration 63 >"$folder/all.toml"
one=$(least "$folder/one.toml")
all=$(least "$folder/all.toml")
awk -v one="$one" -v all="$all" 'BEGIN { printf "16384 events: %s s with one subscriber, %s s with 64, %.2f times as long\n", one, all, all / one }'
