#!/usr/bin/env bash
# Times `zq_bench heap`, over a PosHeap, and bench/heap, the same work over Rust's own BTreeSet and HashMap, in
# alternation; prints the medians of their steps a second, and the ratio of ours to theirs; then the bytes that a member
# of 15 bytes takes at a million, with no value and with one of 64 bytes. Needs cargo and python3.
# Usage: bench/heap.sh [STEPS [MEMBERS [ROUNDS]]]. Status 1 where the two disagree on what was taken.
set -euo pipefail
steps=${1:-1000000} members=${2:-100000} rounds=${3:-7}
root=$(cd "$(dirname "$0")/.." && pwd)
rt=$("$root/tools/find-rt")
out=$root/bench/out
ours=("$root/crates/zq_bench/out/zq_bench" heap)
mkdir -p "$out"
cargo build --quiet --release --offline --manifest-path "$root/bench/heap/Cargo.toml" --target-dir "$out"
(cd "$root/crates/zq_bench" && "$rt" run -- heap 1 1) >"$out/log" 2>&1 || { cat "$out/log" >&2; exit 1; }
rm -f "$out/ours" "$out/theirs"
for ((round = 0; round < rounds; round++)); do
  taken=$("${ours[@]}" "$steps" "$members" 2>>"$out/ours")
  theirs=$("$out/release/heap" "$steps" "$members" 2>>"$out/theirs")
  if [ "$taken" != "$theirs" ]; then
    echo "heap.sh: a PosHeap gave '$taken', and the pair '$theirs'" >&2
    exit 1
  fi
done

# The median rate of one kind of step, from what the rounds of a program wrote.
median() { awk -v kind="$1" '$1 == kind { print $2 }' "$2" | sort -n | sed -n "$(((rounds + 1) / 2))p"; }

# The most memory that a command held, in bytes, and the number of members that it wrote.
peak() {
  python3 -c '
import resource, subprocess, sys
text = subprocess.run(sys.argv[1:], capture_output=True, check=True, text=True).stdout
print(resource.getrusage(resource.RUSAGE_CHILDREN).ru_maxrss * 1024, text.split()[2])' "$@"
}

# The bytes a member of a command with such a value, or none, beside those that it takes with one member.
bytes_a_member() {
  local value=$1 least most count
  read -r least _ < <(peak "${@:2}" 1 1 ${value:+"$value"})
  read -r most count < <(peak "${@:2}" 4000000 1000000 ${value:+"$value"})
  echo $(((most - least) / count))
}

echo "$steps sets, and $steps takes, over $members members: $taken"
for kind in set take; do
  echo "$kind $(median "$kind" "$out/ours") $(median "$kind" "$out/theirs")"
done | awk '
  function line(kind, ours, theirs) { printf "%s: PosHeap %d a second, pair %d, ratio %.2f\n", kind, ours, theirs, ours / theirs }
  { line($1, $2, $3); ours += 1 / $2; theirs += 1 / $3 }
  END { line("both", 2 / ours, 2 / theirs) }'
echo "bytes a member: PosHeap $(bytes_a_member "" "${ours[@]}"), with a value of 64 bytes $(bytes_a_member wide "${ours[@]}"), pair $(bytes_a_member "" "$out/release/heap")"
