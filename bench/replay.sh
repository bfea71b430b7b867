#!/usr/bin/env bash
# Measures ./bsc replay beside bench/plain.cpp, an ordinary program without proofs, on a long script.
#
#     bench/replay.sh [UNICASTS [RUNS [NAMES]]]
#
# It writes the script by bench/long-script (1,000,000 unicasts between 200 names), builds both programs, and compares what they write,
# octet by octet, before it tells a time. Then each of them runs RUNS times (5), by turns; its figure is the middle one.
# PROGRAM may name another build of bsc, and CXX the compiler of the plain program.
set -u
export LC_ALL=C
top=$(readlink -f -- "${BASH_SOURCE[0]}") || exit 1
top=${top%/*/*}
program=${PROGRAM-$top/crates/bsc_program/out/bsc_program}
unicasts=${1-1000000}
runs=${2-5}
names=${3-200}

fail() {
    echo "replay.sh: $1" >&2
    exit 1
}

work=$(mktemp -d) || exit 1
trap 'rm -rf -- "$work"' EXIT

[[ ${PROGRAM+set} ]] || "$top/bsc" replay < "$top/examples/unicast.script" > /dev/null || fail "bsc isn't built"
"${CXX:-g++}" -std=c++17 -O2 -o "$work/plain" "$top/bench/plain.cpp" || fail "the plain program isn't built"
"$top/bench/long-script" "$unicasts" "$names" > "$work/script" || fail "the script isn't written"
lines=$(wc -l < "$work/script")

"$program" replay < "$work/script" > "$work/bsc.out"
echo "bsc: status $?, $(wc -l < "$work/bsc.out") lines, $(wc -c < "$work/bsc.out") octets"
"$work/plain" < "$work/script" > "$work/plain.out"
echo "plain: status $?, $(wc -l < "$work/plain.out") lines, $(wc -c < "$work/plain.out") octets"
cmp -- "$work/bsc.out" "$work/plain.out" || fail "they don't write the same"
echo "they write the same, octet by octet"
rm -- "$work/bsc.out" "$work/plain.out"

# Runs a program once, and puts its seconds and its peak in KiB behind its other runs.
run() {
    local name=$1
    shift
    /usr/bin/time -a -o "$work/$name.runs" -f '%e %U %S %M' "$@" < "$work/script" > /dev/null
}

for ((at = 0; at < runs; at++)); do
    run bsc "$program" replay
    run plain "$work/plain"
done

middle() {
    sort -n -k "$2,$2" -- "$work/$1.runs" | awk -v column="$2" '{ all[NR] = $column } END { print all[int((NR + 1) / 2)] }'
}

echo "script: $lines lines, $(wc -c < "$work/script") octets; load of the machine: $(cut -d ' ' -f 1-3 /proc/loadavg)"
for name in bsc plain; do
    echo "$name, each run's seconds by the clock, in the program, in the kernel, and its peak in KiB:"
    sort -n -- "$work/$name.runs"
done
awk -v lines="$lines" -v bsc="$(middle bsc 1)" -v plain="$(middle plain 1)" \
    -v bsc_busy="$(middle bsc 2)" -v plain_busy="$(middle plain 2)" \
    -v bsc_peak="$(middle bsc 4)" -v plain_peak="$(middle plain 4)" 'BEGIN {
        printf "| | seconds | lines a second | seconds in the program | peak in KiB |\n|---|---|---|---|---|\n"
        printf "| bsc | %.2f | %d | %.2f | %d |\n", bsc, lines / bsc, bsc_busy, bsc_peak
        printf "| plain | %.2f | %d | %.2f | %d |\n", plain, lines / plain, plain_busy, plain_peak
        printf "| ratio | %.2f | | %.2f | %.2f |\n", bsc / plain, bsc_busy / plain_busy, bsc_peak / plain_peak
    }'
