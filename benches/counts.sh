#!/usr/bin/env bash
# counts.sh FILE [ROUNDS]: the least processor time and the most memory in which the login records of a file are counted and let go. The
# program prints the seconds of all their sessions. It is counts/main.rt.in, proved and built as a crate of a copy of the repository, since the
# gate takes time for each crate.
set -euo pipefail
file=$(realpath "$1")
rounds=${2:-11}
top=$(cd "$(dirname "$0")/.." && pwd)
copy=$(mktemp -d)
trap 'rm -rf "$copy"' EXIT
git clone -q "$top" "$copy/tally"
crate=$copy/tally/crates/tally_counts
mkdir -p "$crate/src"
cp "$top/benches/counts/main.rt.in" "$crate/src/main.rt"
echo 'tally_counts: tally_records tally_sessions' >> "$copy/tally/crates.txt"
(cd "$crate" && rt run < /dev/null > "$copy/log" 2>&1) || { tail -n 20 "$copy/log"; exit 1; }
"$crate/out/tally_counts" < "$file"
cc -O2 -o "$copy/measure" "$top/benches/measure.c"
for _ in $(seq "$rounds"); do
    # shellcheck disable=SC2016
    "$copy/measure" /dev/null sh -c 'exec "$0" < "$1"' "$crate/out/tally_counts" "$file"
done | awk '{ time = $2 + $3; if (NR == 1 || time < least) least = time; if ($4 > most) most = $4 } END { printf "%.3f s, %d kB\n", least, most }'
