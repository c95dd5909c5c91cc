#!/usr/bin/env bash
# Times `zq_bench ranked`, over a Ranked and a PosHeap, bench/ranked, the same work over Rust's own BTreeSet, and
# redis-server's sorted sets, where it is there, and prints the least nanoseconds a step of several rounds. Needs cargo.
# Usage: bench/ranked.sh [STEPS [ROUNDS [PAIRS ..]]]. Status 1 where the two programs answer otherwise.
set -euo pipefail
steps=${1:-1000000} rounds=${2:-5}
shift $(($# < 2 ? $# : 2))
[ $# -gt 0 ] || set -- 1000 100000 1000000
root=$(cd "$(dirname "$0")/.." && pwd)
rt=$("$root/tools/find-rt")
out=$root/bench/out
mkdir -p "$out"
cargo build --quiet --release --offline --manifest-path "$root/bench/ranked/Cargo.toml" --target-dir "$out"
(cd "$root/crates/zq_bench" && "$rt" run -- ranked 1 1) >"$out/log" 2>&1 || { cat "$out/log" >&2; exit 1; }
for pairs; do
  rm -f "$out/steps"
  for ((round = 0; round < rounds; round++)); do
    ours=$("$root/crates/zq_bench/out/zq_bench" ranked "$steps" "$pairs" 2>>"$out/steps")
    theirs=$("$out/release/ranked" "$steps" "$pairs" 2>>"$out/steps")
    if [ "$ours" != "$theirs" ]; then
      echo "ranked.sh: a Ranked gave '$ours', and a BTreeSet '$theirs'" >&2
      exit 1
    fi
  done
  "$root/bench/ranked.py" "$pairs" >>"$out/steps"
  echo "$pairs pairs, nanoseconds a step:"
  awk '
    { key = $1 " " $2; if (!(key in least) || $3 < least[key]) least[key] = $3 }
    END {
      split("insert rank ten change remove pop", kinds); split("ranked heap set redis", sides)
      printf "%8s", ""; for (s = 1; s <= 4; s++) printf "%8s", sides[s]; print ""
      for (k = 1; k <= 6; k++) {
        printf "%8s", kinds[k]
        for (s = 1; s <= 4; s++) { key = sides[s] " " kinds[k]; printf "%8s", (key in least) ? least[key] : "-" }
        print ""
      }
    }' "$out/steps"
done
