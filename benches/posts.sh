#!/usr/bin/env bash
# posts.sh [ROUNDS]: the least wall time in which 1,024 full batches of login records are posted, to a bare book and to a
# desk by 1, 2, 4 and 8 threads. The program, posts/main.rt.in, is proved and built as a crate of a copy of the repository,
# since the gate takes time for each crate.
set -euo pipefail
rounds=${1:-5}
top=$(cd "$(dirname "$0")/.." && pwd)
copy=$(mktemp -d)
trap 'rm -rf "$copy"' EXIT
git clone -q "$top" "$copy/tally"
crate=$copy/tally/crates/tally_posts
mkdir -p "$crate/src" "$crate/proofs/post_share"
cp "$top/benches/posts/main.rt.in" "$crate/src/main.rt"
cp "$top/benches/posts/post_share.antt.in" "$crate/proofs/post_share/Invariants.antt"
echo 'tally_posts: tally_records tally_book tally_desk' >> "$copy/tally/crates.txt"
(cd "$crate" && rt run -- 0 > "$copy/log" 2>&1) || { tail -n 20 "$copy/log"; exit 1; }
for threads in 0 1 2 4 8; do
    for _ in $(seq "$rounds"); do
        start=$(date +%s%N)
        "$crate/out/tally_posts" "$threads"
        end=$(date +%s%N)
        echo $((end - start))
    done | sort -n | head -n 1 | awk -v threads="$threads" '{
        printf "%s: %.3f s, %d posts a second\n", threads == 0 ? "a bare book" : threads == 1 ? "a desk, 1 thread" : "a desk, " threads " threads", $1 / 1e9, 1024e9 / $1 }'
done
