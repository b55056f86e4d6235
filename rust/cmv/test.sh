#!/usr/bin/env bash
# rust/cmv/test.sh [--store] : runs each sub-command of cmv on the sample, on a multiplex made from it, on the sample with each packet sent
# twice, on a recording that begins with a break, on noise, on an empty file, on a folder, into a pipe that is closed and onto a full
# device, and holds its output, sentences and exit status against what is stored in tests/. The program is built first, if need be.
#   --store  store what the program prints now
set -euo pipefail
export LC_ALL=C
# shellcheck source-path=SCRIPTDIR source=../../tools/common.sh
. "$(dirname "$0")/../../tools/common.sh"

stored=$top/rust/cmv/tests
sample=$top/samples/sample.ts
pid=(--pid 0x100)
scratch=$(mktemp -d)
trap 'rm -rf "$scratch"' EXIT
cmv() { "$top/tools/cmv" "$@"; }

# Standard output to out, standard error to said.
exits() { # STATUS WORDS..
    local status=0
    cmv "${@:2}" >"$scratch/out" 2>"$scratch/said" || status=$?
    [ "$status" -eq "$1" ] || fail "status $status and not $1: ${*:2}: $(cat "$scratch/said")"
}

prints() { # FILE WORDS..
    exits 0 "${@:2}"
    [ "$store" = no ] || cp "$scratch/out" "$1"
    diff "$1" "$scratch/out" || fail "it prints something else: ${*:2}"
}

# One sentence, and a status of 1.
refuses() { # SENTENCE WORDS..
    exits 1 "${@:2}"
    [ "$(cat "$scratch/said")" = "cmv: $1" ] || fail "it says something else: ${*:2}: $(cat "$scratch/said")"
}

check_outputs() { # NAME FILE
    local seconds
    prints "$stored/$1-events.txt" events "$2"
    prints "$stored/$1-times.txt" times "$2"
    prints "$stored/$1-summary.txt" summary "$2"
    for seconds in '' --seconds; do
        prints "$stored/$1-times$seconds.csv" times "$2" --csv ${seconds:+"$seconds"}
        prints "$stored/$1-summary$seconds.json" summary "$2" --json ${seconds:+"$seconds"}
        python3 -m json.tool "$scratch/out" >/dev/null || fail "summary --json is not JSON"
    done
    exits 0 events "$2" --json
    python3 -m json.tool "$scratch/out" >/dev/null || fail "events --json is not JSON"
}

check_sample() {
    check_outputs sample "$sample"
    prints "$top/docs/times.svg" times "$sample" --svg
    python3 -c 'import sys, xml.dom.minidom as xml; xml.parse(sys.argv[1])' "$top/docs/times.svg" || fail "the picture is not XML"
    prints "$stored/sample-payload" payload "$sample" "${pid[@]}"
    grep -qx 'cmv: 1 break: a unit that a break cuts off is left out' "$scratch/said" || fail "payload does not tell of the break"
    exits 0 rewrite "$sample" --pid 256
    cp "$scratch/out" "$scratch/rewritten"
    prints "$stored/rewritten-summary.txt" summary "$scratch/rewritten"
    prints "$stored/sample-payload" payload "$scratch/rewritten" "${pid[@]}"
    cmv events - <"$sample" | diff "$stored/sample-events.txt" - || fail "standard input is read as something else"
    cmv events "$sample" "${pid[@]}" | diff "$stored/sample-events.txt" - || fail "the PID alone has other events"
    [ ! -e "$top/crates/lister/out/lister" ] ||
        diff <("$top/tools/list" "$sample" | sed '1d;$d') <(awk 'NR > 1 { print $1, $3, $4, $5 }' "$stored/sample-events.txt") ||
        fail "the events are not those of the lister"
}

# The sample, and after each packet of it one of PID 0x101, of which one is marked as scrambled and two as damaged; after all a null packet.
multiplex() {
    python3 - "$sample" <<'END'
import sys
sample = open(sys.argv[1], "rb").read()
for index in range(len(sample) // 188):
    packet = bytearray(sample[188 * index:188 * index + 188])
    sys.stdout.buffer.write(packet)
    packet[2] = 1
    packet[1] |= 0x80 if index in (7, 8) else 0
    packet[3] |= 0x80 if index == 20 else 0
    sys.stdout.buffer.write(packet)
sys.stdout.buffer.write(b"\x47\x1f\xff\x10" + b"\xff" * 184)
END
}

check_multiplex() {
    multiplex >"$scratch/multiplex"
    check_outputs multiplex "$scratch/multiplex"
    exits 0 events "$scratch/multiplex" "${pid[@]}"
    diff <(awk 'NR > 1 { print $1 / 2, $3, $4, $5 }' "$scratch/out") <(awk 'NR > 1 { print $1, $3, $4, $5 }' "$stored/sample-events.txt") ||
        fail "a PID has other events in a multiplex than alone"
    exits 0 payload "$scratch/multiplex" --pid 0x101
    grep -qx 'cmv: 3 packets are marked as scrambled or damaged: dropped' "$scratch/said" || fail "payload does not tell of dropped packets"
    refuses 'no unit was found' payload "$scratch/multiplex" --pid 0x1fff
    refuses "$scratch/multiplex: no packet of PID 0x0102" times "$scratch/multiplex" --pid 258
}

# The sample with each packet sent twice. By the standard it has what the sample has, at every second packet; as the original judges
# counters, each repeat is a break.
check_twice() {
    python3 -B "$top/tools/python/twice.py" "$sample" "$scratch/twice"
    prints "$stored/twice-summary.txt" summary "$scratch/twice"
    prints "$stored/twice-standard-summary.txt" summary "$scratch/twice" --standard
    prints "$stored/twice-standard-summary.json" summary "$scratch/twice" --standard --json
    python3 -m json.tool "$scratch/out" >/dev/null || fail "summary --json is not JSON"
    prints "$stored/twice-standard-times.csv" times "$scratch/twice" --standard --csv
    diff <(summary_of_units "$scratch/twice" --standard) <(summary_of_units "$sample") || fail "the sample sent twice is summed up otherwise"
    exits 0 events "$scratch/twice" --standard
    diff <(awk 'NR > 1 { print $1 / 2, $3, $4, $5 }' "$scratch/out") <(awk 'NR > 1 { print $1, $3, $4, $5 }' "$stored/sample-events.txt") ||
        fail "the sample sent twice has other events"
    prints "$stored/sample-payload" payload "$scratch/twice" "${pid[@]}" --standard
    exits 0 rewrite "$scratch/twice" "${pid[@]}" --standard
    cp "$scratch/out" "$scratch/rewritten"
    prints "$stored/rewritten-summary.txt" summary "$scratch/rewritten"
    refuses_units "$scratch/twice"
    exits 0 times "$scratch/twice" --standard --svg
    grep -q '>break: 1<' "$scratch/out" || fail "the picture has other breaks"
    exits 0 events "$sample" --standard
    diff <(cells "$scratch/out") <(cells "$stored/sample-events.txt") || fail "the sample has other events by the standard"
}

# The rows of a table, whatever its columns' widths are.
cells() { awk '{ $1 = $1 } 1' "$1"; } # FILE

# Of PID 0x100 a packet without the start flag, and the unit after it without the packet between them: its first start flag is a break. Of
# PID 0x101 a unit from its start on, and after all a null packet.
late() {
    python3 - "$sample" <<'END'
import sys
sample = open(sys.argv[1], "rb").read()
packets = [sample[188 * index:188 * index + 188] for index in range(len(sample) // 188)]
other = [packet[:2] + b"\x01" + packet[3:] for packet in packets[:2]]
sys.stdout.buffer.write(b"".join([packets[14], *packets[16:19], *other, b"\x47\x1f\xff\x10" + b"\xff" * 184]))
END
}

# By the standard the break announces the stream; as the original has it, no event does.
check_late() {
    late >"$scratch/late"
    prints "$stored/late-events.txt" events "$scratch/late"
    prints "$stored/late-summary.txt" summary "$scratch/late"
    prints "$stored/late-standard-events.txt" events "$scratch/late" --standard
    prints "$stored/late-standard-summary.txt" summary "$scratch/late" --standard
    prints "$stored/late-standard-summary.csv" summary "$scratch/late" --standard --csv
    prints "$stored/late-standard-summary.json" summary "$scratch/late" --standard --json
    python3 -m json.tool "$scratch/out" >/dev/null || fail "summary --json is not JSON"
    exits 0 events "$scratch/late" --standard --json
    grep -q '"event":"start-break"' "$scratch/out" || fail "events --json does not tell that a break announced the stream"
    exits 0 events "$scratch/late" --standard
    diff <(cells "$scratch/out" | grep -v ' start-break ') <(cells "$stored/late-events.txt") || fail "the modes differ in more than the start"
}

# The columns that do not count packets: units to first PCR.
summary_of_units() { # FILE WORDS..
    cmv summary "$@" --csv | cut -d, -f 1,3-9
}

# As the original judges counters no unit of it is whole.
refuses_units() { # FILE
    local name
    for name in payload rewrite; do
        exits 1 "$name" "$1" "${pid[@]}"
        [ ! -s "$scratch/out" ] || fail "$name finds units"
        grep -qx 'cmv: no unit was found' "$scratch/said" || fail "$name says something else: $(cat "$scratch/said")"
    done
}

# Units that cannot be read (two headers without check bits) or written (a stream id without header fields).
check_lost_units() {
    local name
    sed 's/\x00\x00\x01\xe0\x00\x00\x80\x80/\x00\x00\x01\xe0\x00\x00\x40\x80/' "$sample" >"$scratch/unreadable"
    for name in payload rewrite; do
        exits 1 "$name" "$scratch/unreadable" "${pid[@]}"
        grep -q '^cmv: 2 units are not written, the first one at packet 16: ' "$scratch/said" || fail "on bad headers: $(cat "$scratch/said")"
        [ -s "$scratch/out" ] || fail "no unit is written beside those that cannot be read"
    done
    sed 's/\x00\x00\x01\xe0/\x00\x00\x01\xbf/' "$sample" >"$scratch/bare"
    exits 0 payload "$scratch/bare" "${pid[@]}"
    exits 1 rewrite "$scratch/bare" "${pid[@]}"
    grep -q '^cmv: 4 units are not written, the first one at packet 0: ' "$scratch/said" || fail "on bare payload: $(cat "$scratch/said")"
}

check_bad_input() {
    local name words
    : >"$scratch/empty"
    seq 100000 | gzip -cn >"$scratch/noise"
    { cat "$sample" && head -c 100 "$sample"; } >"$scratch/tail"
    for name in events times summary payload rewrite 'times --svg' 'events --json'; do
        read -ra words <<<"$name"
        words+=("${pid[@]}")
        refuses "$scratch/empty: no packet: a packet has 188 bytes and begins with 0x47" "${words[@]}" "$scratch/empty"
        refuses "$scratch: is a folder" "${words[@]}" "$scratch"
        refuses "$scratch/none: No such file or directory (os error 2)" "${words[@]}" "$scratch/none"
        exits 1 "${words[@]}" "$scratch/noise"
        [ "$(grep -c '^cmv: ' "$scratch/said") $(wc -l <"$scratch/said")" = '1 1' ] || fail "on noise it says: $(cat "$scratch/said")"
        exits 1 "${words[@]}" "$scratch/tail"
        grep -q ': 1 packet refused, the first at packet 60: ' "$scratch/said" || fail "on a tail it says: $(cat "$scratch/said")"
    done
    for name in events times summary; do
        exits 1 "$name" "$scratch/noise"
        grep -q ' packets refused, the first at packet 0: ' "$scratch/said" || fail "on noise it says: $(cat "$scratch/said")"
    done
}

check_output_errors() {
    local name words
    for name in events times summary 'payload --pid 0x100' 'rewrite --pid 0x100' 'times --svg'; do
        read -ra words <<<"$name"
        { sleep 0.1 && { cmv "${words[@]}" "$sample" && echo "$?" >"$scratch/status"; } 2>"$scratch/said"; } | true
        [ "$(cat "$scratch/status" "$scratch/said")" = 0 ] || fail "a closed pipe: $name: $(cat "$scratch/said")"
        rm "$scratch/status"
        if cmv "${words[@]}" "$sample" >/dev/full 2>"$scratch/said"; then fail "a full device does not matter: $name"; fi
        grep -qx 'cmv: standard output: No space left on device (os error 28)' "$scratch/said" || fail "a full device: $(cat "$scratch/said")"
    done
}

check_usage() {
    local name words
    exits 0 --help
    for name in events times summary payload rewrite; do
        exits 0 "$name" --help
        grep -q '^Exit status: ' "$scratch/out" || fail "the help of $name does not tell the exit status"
        grep -q -e '--standard .*: for stations that send packets twice$' "$scratch/out" || fail "the help of $name does not tell of --standard"
        exits 2 "$name"
        exits 2 "$name" "$sample" --pid 8192
        exits 2 "$name" "$sample" --pid 0x
    done
    for name in '' none "payload $sample" "rewrite $sample" "events $sample --seconds" "times $sample --json --csv" "times $sample --svg --csv"; do
        read -ra words <<<"$name"
        exits 2 "${words[@]}"
    done
}

# Over 64 MiB, with standard error a terminal.
check_progress() {
    local nth
    for ((nth = 0; nth < 6100; nth++)); do echo "$sample"; done | xargs cat >"$scratch/long"
    script -qec "$top/tools/cmv summary $scratch/long >/dev/null" /dev/null </dev/null | grep -q 'MiB of 65.62 MiB' || fail "no progress bar"
    exits 0 summary "$scratch/long"
    [ ! -s "$scratch/said" ] || fail "a progress bar that no terminal shows"
}

# Side by side, for there are many runs of the program.
check_all() {
    local name job jobs=() failed=0
    for name in sample multiplex twice late lost_units bad_input output_errors usage progress; do
        (
            scratch=$scratch/$name
            mkdir "$scratch"
            "check_$name"
        ) &
        jobs+=("$!")
    done
    for job in "${jobs[@]}"; do wait "$job" || failed=1; done
    return "$failed"
}

takes --store 0 "$@"
store=no
[ $# = 0 ] || store=yes
need_python
cmv --version >/dev/null
check_all
echo "cmv: as stored"
