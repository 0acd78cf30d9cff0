#!/usr/bin/env bash
# Turns per second of the desk, the stage cache and the mipmap index that threads share, with one thread and with four; and what
# processor time four threads take that wait at the desk for a second.
# Usage: bench/shared/run.sh [TURNS] [ROUNDS]; wants rt and Python 3. It proves and builds four programs in a copy of the repository, and
# leaves nothing behind.
set -eu
here=$(cd "$(dirname "$0")" && pwd)
root=$(cd "$here/../.." && pwd)
turns=${1:-200000}
rounds=${2:-5}
work=$(mktemp -d)
trap 'rm -rf "$work"' EXIT
cp -r "$root/." "$work"
python3 "$here/kinds.py" "$work"
for kind in turns_desk turns_stage turns_mips; do
    (cd "$work/crates/$kind" && rt run -- 1 1) > "$work/build.log" 2>&1 || { tail -20 "$work/build.log"; exit 1; }
    program=$(find "$work/crates/$kind/out" -type f -perm -u+x -name 'turns*' | head -1)
    for threads in 1 4; do
        for _ in $(seq "$rounds"); do "$program" "$threads" "$turns"; done | awk '{ print $1 * $2 * 1e9 / $3 }' | sort -n \
            | awk -v k="$kind" -v t="$threads" '{ a[NR] = $1 } END { printf "%-12s %d threads %12.0f turns/s\n", k, t, a[int((NR + 1) / 2)] }'
    done
done
(cd "$work/crates/waiting" && rt run) > "$work/build.log" 2>&1 || { tail -20 "$work/build.log"; exit 1; }
TIMEFORMAT='four that wait: %R s wall, %U s and %S s of processor time'
time "$work/crates/waiting/out/waiting"
