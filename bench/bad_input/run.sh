#!/usr/bin/env bash
# Bad input, one case after another: what the program says, its status, and that nothing is half done. Outside the gate.
set -u
program="$(cd "$(dirname "$0")/../.." && pwd)/bin/devcore"
folder="$(mktemp -d)"
trap 'rm -rf "$folder"' EXIT
cd "$folder"
printf '{"steps":[]}' > script.json
printf 'P6\n1 1\n255\nabc' > source.ppm
: > empty
printf 'P6\n99999999999999999999 1\n255\nabc' > huge.ppm
printf 'P6\n1 1\n255\nab' > short.ppm
printf '\xff\xfe{"steps":[]}' > not-utf8.json
printf '{"steps":[{"do":"settle"},{"do":"select","end":1}]}' > past.json
{ printf '%.0s[' $(seq 128); printf '%.0s]' $(seq 128); } > deep.json
printf '[["editor"],["editor"],["editor"]]' > thrice.json
mkdir folder
failed=0
case_of() { # name, wanted status, wanted line, words
  name=$1; status=$2; line=$3; shift 3
  said="$("$program" "$@" 2>/dev/null)"; got=$?
  if [ "$got" = "$status" ] && [ "$said" = "$line" ] && [ ! -e out.ppm ]; then echo "ok    $name: $said ($got)"
  else echo "WRONG $name: $said ($got), wanted $line ($status)"; failed=1; fi
  rm -f out.ppm
}
case_of "an empty script" 2 "script refused at step 0: text" develop empty source.ppm out.ppm
case_of "an empty source" 3 "source refused at byte 0: bad magic" develop script.json empty out.ppm
case_of "a huge number in the header" 3 "source refused at byte 3: too large" develop script.json huge.ppm out.ppm
case_of "a raster one byte short" 3 "source refused at byte 13: short" develop script.json short.ppm out.ppm
case_of "a script that is no UTF-8" 2 "script refused at step 0: text" develop not-utf8.json source.ppm out.ppm
case_of "a script of 128 nested lists" 2 "script refused at step 0: text" develop deep.json source.ppm out.ppm
case_of "a step that the history doesn't allow" 2 "script refused at step 2: end past" develop past.json source.ppm out.ppm
case_of "an event that may not happen" 4 "events refused at event 2: not allowed" stepped script.json source.ppm thrice.json
case_of "no list of events" 4 "events refused at event 0: form" stepped script.json source.ppm script.json
case_of "a folder as script" 5 "shelf fault: folder" develop folder source.ppm out.ppm
case_of "a missing script" 5 "shelf fault: missing" develop missing source.ppm out.ppm
case_of "an OUT that can't be written" 5 "shelf fault: folder" develop script.json source.ppm folder
case_of "an OUT in a missing folder" 5 "shelf fault: nowhere/out.ppm" develop script.json source.ppm nowhere/out.ppm
case_of "words of no command" 1 "usage: devcore develop SCRIPT SOURCE OUT, stepped SCRIPT SOURCE EVENTS, session SCRIPT SOURCE, generate N" --help
exit $failed
