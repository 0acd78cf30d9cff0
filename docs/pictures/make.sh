#!/usr/bin/env bash
# Makes the pictures of the documents from the program's own output: the landscape before and after its script, and the
# recipes.
#
# Usage: make.sh [FOLDER]     FOLDER is where the PNGs go, this one by default
set -euo pipefail
here="$(cd "$(dirname "$0")" && pwd)"
top="$(cd "$here/../.." && pwd)"
folder="${1:-$here}"
room="$(mktemp -d)"
trap 'rm -rf "$room"' EXIT
python3 "$top/examples/landscape/make_source.py" "$room/source.pgm"
picture() { # the PNG's name, its script under examples/
  "$top/bin/devcore" develop "$top/examples/$2.json" "$room/source.pgm" "$room/$1.ppm" > /dev/null
  python3 "$here/png.py" "$room/$1.ppm" "$folder/$1.png"
}
picture before landscape/before
picture after landscape/script
for recipe in white_balance exposure s_curve graduated_sky vignette behind_a_crop; do
  picture "$recipe" "recipes/$recipe"
done
