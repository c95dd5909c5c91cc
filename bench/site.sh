#!/usr/bin/env bash
# Calls a second of a site of 16 heaps by 1, 2 and 4 passes, each in a thread of its own, by `zq_bench site`: half of them
# ZSCORE, a third ZADD, the rest ZINCRBY and ZPOPMIN, over 1,000 keys; and the same with ZPOPNEAR in place of ZPOPMIN. Prints
# the medians of several rounds, and each one's ratio to that of one pass. Usage: bench/site.sh [CALLS [ROUNDS]]. Status 1
# where a call answers an error.
set -euo pipefail
calls=${1:-2000000} rounds=${2:-5}
root=$(cd "$(dirname "$0")/.." && pwd)
rt=$("$root/tools/find-rt")
out=$root/bench/out
ours=$root/crates/zq_bench/out/zq_bench
mkdir -p "$out"
(cd "$root/crates/zq_bench" && "$rt" run -- site 1) >"$out/log" 2>&1 || { cat "$out/log" >&2; exit 1; }
rm -f "$out/site"
for ((round = 0; round < rounds; round++)); do
  said=$("$ours" site "$calls" 2>>"$out/site")
  if grep 'errors$' <<<"$said" | grep -qv ' 0 errors$'; then echo "site.sh: $said" >&2; exit 1; fi
done

# The median rate of so many passes with this pop, from what the rounds wrote.
median() {
  awk -v pop="$1" -v passes="$2" 'NF == 1 { now = $1 } NF == 2 && now == pop && $1 == passes { print $2 }' "$out/site" |
    sort -n | sed -n "$(((rounds + 1) / 2))p"
}

echo "$(nproc) processors, $calls calls"
for pop in ZPOPMIN ZPOPNEAR; do
  one=$(median "$pop" 1)
  for passes in 1 2 4; do
    rate=$(median "$pop" "$passes")
    echo "$pop, $passes passes: $rate calls a second, $((rate * 100 / one))% of one pass"
  done
done
