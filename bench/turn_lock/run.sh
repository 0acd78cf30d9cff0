#!/usr/bin/env bash
# Turns per second of the turn lock, beside a pthread_mutex and a C ticket lock, with one thread and with four, in one run.
# Usage: bench/turn_lock/run.sh [TURNS] [ROUNDS]; wants rt and a C compiler. It works in a temporary folder and leaves nothing behind.
set -eu
here=$(cd "$(dirname "$0")" && pwd)
root=$(cd "$here/../.." && pwd)
turns=${1:-1000000}
rounds=${2:-5}
work=$(mktemp -d)
trap 'rm -rf "$work"' EXIT

# a repository of two crates: the lock, and a program that takes turns
mkdir -p "$work/crates/turns/src" "$work/crates/turns/specs" "$work/crates/turns/proofs/take_turns"
cp -r "$root/crates/turn_lock" "$work/crates/turn_lock"
rm -rf "$work/crates/turn_lock/out" "$work/crates/turn_lock/must-fail"
cp "$root/HANDLES" "$work/HANDLES"
grep '^turn_lock' "$root/crates.txt" > "$work/crates.txt"
echo 'turns: turn_lock' >> "$work/crates.txt"
cp "$here/main.rt.txt" "$work/crates/turns/src/main.rt"
cp "$here/take_turns.Invariants.antt.txt" "$work/crates/turns/proofs/take_turns/Invariants.antt"
touch "$work/crates/turns/stdin"

(cd "$work/crates/turns" && rt run -- 1 1) > "$work/build.log" 2>&1 || { tail -20 "$work/build.log"; exit 1; }
program=$(find "$work/crates/turns/out" -type f -perm -u+x -name 'turns*' | head -1)
${CC:-cc} -O2 -pthread -o "$work/locks" "$here/locks.c"

# the median of the rounds, in which the locks take turns
for threads in 1 4; do
    for _ in $(seq "$rounds"); do
        "$program" "$threads" "$turns" | sed 's/^/turn_lock /'
        "$work/locks" "$threads" "$turns"
    done
done > "$work/times"
for threads in 1 4; do
    for lock in turn_lock pthread_mutex ticket_lock; do
        awk -v l="$lock" -v t="$threads" '$1 == l && $2 == t { print $2 * $3 * 1e9 / $4 }' "$work/times" | sort -n \
            | awk -v l="$lock" -v t="$threads" '{ a[NR] = $1 } END { printf "%-14s %d threads %12.0f turns/s\n", l, t, a[int((NR + 1) / 2)] }'
    done
done
