#!/usr/bin/env bash
# Tries wrong bodies that the gate leaves out, since each crate's edits cost it one more check of that crate, and the
# table of rows shows what they break. Each must be refused by the crate's contracts.
#
# Usage: run.sh [CRATE..]   (all crates of this folder, where none is named; a crate takes two to ten minutes)
set -euo pipefail
here="$(cd "$(dirname "$0")" && pwd)"
top="$(cd "$here/../.." && pwd)"
room="$(mktemp -d)"
trap 'rm -rf "$room"' EXIT
git clone -q "$top" "$room/copy"
crates=("$@")
if [ "${#crates[@]}" = 0 ]; then
  crates=("$here"/*/)
fi
names=()
for crate in "${crates[@]}"; do
  name="$(basename "$crate")"
  mkdir -p "$room/copy/crates/$name/must-fail"
  cp "$here/$name"/*.edit "$room/copy/crates/$name/must-fail/"
  names+=("$name")
done
cd "$room/copy"
rt must-fail "${names[@]}"
