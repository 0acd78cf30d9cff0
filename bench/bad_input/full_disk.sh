#!/usr/bin/env bash
# A full disk: what the program says, its status, and that no old file is lost. It mounts a file system of 64 kB, so it
# wants root. Outside the gate.
set -u
program="$(cd "$(dirname "$0")/../.." && pwd)/bin/devcore"
"$program" --help > /dev/null # builds it, where it isn't built yet
small="$(mktemp -d)"; large="$(mktemp -d)"
mount -t tmpfs -o size=64k tmpfs "$small" || exit 2
trap 'cd /; umount "$small"; rmdir "$small"; rm -rf "$large"' EXIT
failed=0
verdict() { # name, whether it holds (0 or not)
  if [ "$2" = 0 ]; then echo "ok    $1"; else echo "WRONG $1"; failed=1; fi
}
same() { cmp -s "$1" "$2"; }
run() { # wanted status, wanted line, words
  status=$1; line=$2; shift 2
  said="$("$program" "$@" 2>/dev/null)"; got=$?
  [ "$got" = "$status" ] && [ "$said" = "$line" ]
  verdict "$*: $said ($got)" $?
}
nothing_beside() { [ -z "$(find "$small" -name '.devcore-*')" ]; verdict "  nothing was left beside" $?; }
# 13 + 100 * 100 * 3 bytes: two of them don't fit into 64 kB beside a script.
{ printf 'P6\n100 100\n255\n'; head -c 30000 /dev/urandom; } > "$large/source.ppm"
{ printf 'P6\n100 100\n255\n'; head -c 30000 /dev/zero; } > "$large/old.ppm"
printf '{"steps":[{"do":"set","module":"exposure","params":{"black":0,"gain":8192}}]}' > "$large/script.json"
cd "$small"
cp "$large/script.json" .

cp "$large/source.ppm" source.ppm
head -c 12000 /dev/zero > filler
run 5 "shelf fault: source.ppm" develop script.json source.ppm source.ppm
same source.ppm "$large/source.ppm"; verdict "  OUT that is SOURCE has its old bytes" $?
nothing_beside
run 5 "shelf fault: new.ppm" develop script.json source.ppm new.ppm
[ ! -e new.ppm ]; verdict "  a new name has nothing" $?
nothing_beside

cp "$large/old.ppm" "$small/source.ppm"
run 5 "shelf fault: source.ppm" develop script.json "$large/source.ppm" source.ppm
same source.ppm "$large/old.ppm"; verdict "  an old OUT has its old bytes" $?
nothing_beside

rm filler
chmod 640 source.ppm
rm -f "$large/wanted.ppm"
run 0 "developed 100 100" develop script.json "$large/source.ppm" "$large/wanted.ppm"
rm source.ppm; printf 'old' > source.ppm; chmod 640 source.ppm
run 0 "developed 100 100" develop script.json "$large/source.ppm" source.ppm
same source.ppm "$large/wanted.ppm"; verdict "  with room OUT has the new bytes" $?
[ "$(stat -c %a source.ppm)" = 640 ]; verdict "  and the old permissions" $?
nothing_beside
rm source.ppm; printf 'old' > source.ppm; ln -s source.ppm link.ppm
run 0 "developed 100 100" develop script.json "$large/source.ppm" link.ppm
[ -L link.ppm ] && same source.ppm "$large/wanted.ppm"; verdict "  a link is written through" $?
run 5 "shelf fault: /dev/full" develop script.json "$large/source.ppm" /dev/full
[ -c /dev/full ]; verdict "  a device stays one" $?
"$program" develop script.json "$large/source.ppm" "$large/out.ppm" > /dev/full 2>/dev/null
[ "$?" = 6 ] && same "$large/out.ppm" "$large/wanted.ppm"; verdict "a full output: status 6, and OUT has the picture" $?
exit $failed
