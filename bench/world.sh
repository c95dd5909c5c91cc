#!/usr/bin/env bash
# Plays drawn events in a world of 8 sites of 4 heaps, by `zq_bench world`, and prints the events a second, the
# operations that were made and the time of a final answer: the medians of several rounds.
# Usage: bench/world.sh [EVENTS [ROUNDS]]. Status 1 where the sites do not answer alike in the end.
set -euo pipefail
events=${1:-100000} rounds=${2:-5}
root=$(cd "$(dirname "$0")/.." && pwd)
rt=$("$root/tools/find-rt")
out=$root/bench/out
ours=$root/crates/zq_bench/out/zq_bench
mkdir -p "$out"
(cd "$root/crates/zq_bench" && "$rt" run -- world 1) >"$out/log" 2>&1 || { cat "$out/log" >&2; exit 1; }
rm -f "$out/world"
for ((round = 0; round < rounds; round++)); do
  said=$("$ours" world "$events" 2>>"$out/world")
  case $said in
    *alike) ;;
    *) echo "world.sh: $said" >&2; exit 1 ;;
  esac
done

# The median of one kind of line, from what the rounds wrote.
median() { awk -v kind="$1" '$1 == kind { print $2 }' "$out/world" | sort -n | sed -n "$(((rounds + 1) / 2))p"; }

echo "$said"
echo "$(median events) events a second, $(median operations) operations, $(median answer) nanoseconds an answer"
