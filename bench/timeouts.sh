#!/usr/bin/env bash
# What timeouts, spin-ups, writes and reads do to the energy of a week of 36 volumes (samples/week): the first table is that of
# docs/USAGE.md, "wol whatif". The second, of the first 250,000 lines, says how many reads and writes wait for a disk.
# usage: bench/timeouts.sh [FOLDER]     a folder with 1 GB (/tmp if left out). The program is build/wol, as `make build` leaves it
set -eu
cd "$(dirname "$0")/.."
program=$PWD/build/wol
week=$PWD/samples/week
[ -x "$program" ] || { echo "bench/timeouts.sh: no build/wol: run 'make build' first" >&2; exit 1; }
place=$(mktemp -d "${1:-/tmp}/wol-timeouts.XXXXXX")
trap 'rm -r "$place"' EXIT
cd "$place"
python3 "$week/week.py" >week.csv

# saved WHAT TRACE [KEY VALUE]: a row of the table: what is saved against always on, with another value of a key
saved() {
    if [ $# -eq 4 ]; then sed "s/^$3 = .*/$3 = $4/" "$week/wol.toml" >wol.toml; else cp "$week/wol.toml" .; fi
    "$program" whatif <"$2" | awk -v what="$1" '
        { energy[$1] = $NF }
        END {
            printf "| %s |", what
            split("spindown host all", policy)
            for (k = 1; k <= 3; k++) printf " %.1f %% |", 100 - 100 * energy[policy[k]] / energy["always"]
            print ""
        }'
}

echo "| changed | spin-down | within a server | among all |"
echo "|---|---|---|---|"
for seconds in 10 30; do saved "timeout $seconds s" week.csv timeout_ms ${seconds}000; done
saved "**timeout 60 s, 1,000 J for a spin-up**" week.csv
for seconds in 120 300 600; do saved "timeout $seconds s" week.csv timeout_ms ${seconds}000; done
for joules in 0 4,000 8,000; do saved "$joules J for a spin-up" week.csv wake_mj $((${joules//,/} * 1000)); done
for change in "a quarter of the writes,--writes,0.25" "four times the writes,--writes,4" "a quarter of the reads,--reads,0.25" "twice the reads,--reads,2"; do
    IFS=, read -r what option factor <<<"$change"
    python3 "$week/week.py" "$option" "$factor" >changed.csv
    saved "$what" changed.csv
done

head -n 250000 week.csv >hours.csv
cp "$week/wol.toml" .
echo
echo "| timeout | policy | saved | reads that wait | writes that wait |"
echo "|---|---|---|---|---|"
for seconds in 10 30 60 120 300; do
    "$program" whatif --long --timeout ${seconds}000 <hours.csv | awk -v what="$seconds s" '
        $2 == "wakes" { energy[$1] = $7 }
        $2 == "reads" { reads[$1] = 100 * $5 / $3 }
        $2 == "writes" { writes[$1] = 100 * $5 / $3 }
        END {
            split("spindown all", policy)
            for (k = 1; k <= 2; k++) {
                it = policy[k]
                printf "| %s | `%s` | %.1f %% | %.2f %% | %.2f %% |\n", k == 1 ? what : "", it, 100 - 100 * energy[it] / energy["always"], reads[it], writes[it]
            }
        }'
done
