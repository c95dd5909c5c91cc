#!/usr/bin/env bash
# Lockings a second of the ticket lock and of a Mutex, by 1, 2, 4, 16 and 64 threads, with nothing done under the lock and
# with about half a microsecond of work: on all processors, and then on one. After that how evenly 64 threads share each
# lock in ten seconds. Usage: bench/lock.sh [MILLISECONDS of each rate]
set -euo pipefail
root=$(cd "$(dirname "$0")/.." && pwd)
rt=$("$root/tools/find-rt")
time=${1:-1000}
cd "$root/crates/zq_bench"
# This proves and builds it, and where that fails shows why.
"$rt" run -- lock rates 1 >/dev/null 2>&1 || "$rt" run -- lock rates 1
echo "$(nproc) processors"
out/zq_bench lock rates "$time"
echo "one processor"
taskset -c 0 out/zq_bench lock rates "$time"
echo "64 threads, nothing inside, ten seconds"
out/zq_bench lock spread 10000
