#!/usr/bin/env python3
"""`develop` once more, in plain Python, from the formulas of docs/FORMATS.md: for answers that don't come from the program.

Usage: formulas.py SCRIPT SOURCE OUT     develops SOURCE by SCRIPT
       formulas.py                       writes .ci/written.txt anew: what the commands of the documents write

It takes valid scripts and sources alone, and is slow. Commands that aren't a `develop`, or are refused, keep their lines of
.ci/written.txt, which are worked out by hand.
"""
import hashlib
import json
import os
import re
import shlex
import subprocess
import sys
import tempfile
from pathlib import Path

TOP = Path(__file__).resolve().parent.parent
WRITTEN = TOP / ".ci/written.txt"
GREATEST, WHITE, WHOLE = 1048575, 65535, 65536
START = ["rawprepare", "temperature", "demosaic", "orientation", "crop", "exposure", "channelmixer", "tonecurve"]


def clamp(v):
    return min(max(v, 0), GREATEST)


class Picture:
    """Sides, and the values of a pixel: one where there is a colour filter array, else three."""

    def __init__(self, w, h, values, cfa=None):
        self.w, self.h, self.values, self.cfa = w, h, values, cfa

    def channels(self):
        return 1 if self.cfa else 3

    def colour(self, x, y, c):
        """0, 1, 2 for red, green, blue."""
        return "RGB".index(self.cfa[x % 2 + 2 * (y % 2)]) if self.cfa else c

    def pixel(self, x, y):
        at = (y * self.w + x) * self.channels()
        return self.values[at : at + self.channels()]

    def places(self):
        return [(x, y) for y in range(self.h) for x in range(self.w)]

    def each_value(self, f):
        """The picture of f(value, colour)."""
        n = self.channels()
        values = [f(v, self.colour(x, y, c)) for x, y in self.places() for c, v in enumerate(self.pixel(x, y))]
        return Picture(self.w, self.h, values, self.cfa)

    def each_pixel(self, f, w=None, h=None):
        """The RGB picture of f(x, y)."""
        picture = Picture(w or self.w, h or self.h, [])
        picture.values = [v for x, y in picture.places() for v in f(x, y)]
        return picture


# ---- pictures as bytes


def read_picture(path, cfa):
    data, numbers, at = Path(path).read_bytes(), [], 2
    while len(numbers) < 3:
        gap = re.compile(rb"(?:[ \t\n\v\f\r]|#[^\n\r]*[\n\r])*").match(data, at).end()
        digits = re.compile(rb"[0-9]+").match(data, gap)
        numbers.append(int(digits[0]))
        at = digits.end()
    w, h, top = numbers
    size, colours = (1 if top < 256 else 2), (3 if data[:2] == b"P6" else 1)
    raster = data[at + 1 :]
    samples = [min(int.from_bytes(raster[i * size : (i + 1) * size], "big"), top) for i in range(w * h * colours)]
    if colours == 1 and cfa:
        return Picture(w, h, samples, cfa)
    values = [s * WHITE // top for s in samples]
    return Picture(w, h, values if colours == 3 else [v for v in values for _ in range(3)])


def write_picture(path, picture, depth):
    whites = [min(v, WHITE) for v in picture.values]
    raster = bytes(v // 257 for v in whites) if depth == 8 else b"".join(v.to_bytes(2, "big") for v in whites)
    head = b"P6\n%d %d\n%d\n" % (picture.w, picture.h, 255 if depth == 8 else 65535)
    Path(path).write_bytes(head + raster)


# ---- modules: each takes its settings and a picture


def rawprepare(p, q):
    return q.each_value(lambda v, c: min(max(v - p["black"][c], 0) * WHITE // (p["white"] - p["black"][c]), GREATEST))


def temperature(p, q):
    return q.each_value(lambda v, c: min(v * p["mul"][c] // 4096, GREATEST))


def window(q, x, y, r):
    """The pixels within r of a pixel."""
    return [
        (u, v) for v in range(max(0, y - r), min(q.h, y + r + 1)) for u in range(max(0, x - r), min(q.w, x + r + 1))
    ]


def demosaic(_, q):
    if not q.cfa:
        return q

    def pixel(x, y):
        near = [(q.colour(u, v, 0), q.pixel(u, v)[0]) for u, v in window(q, x, y, 1)]
        means = [[v for k, v in near if k == c] for c in range(3)]
        own = q.colour(x, y, 0)
        return [q.pixel(x, y)[0] if c == own else sum(means[c]) // len(means[c]) for c in range(3)]

    return q.each_pixel(pixel)


def before_turn(p, q, x, y):
    a, b = (y, x) if p["swap"] else (x, y)
    return (q.w - 1 - a if p["flip_x"] else a), (q.h - 1 - b if p["flip_y"] else b)


def kept(p, q):
    left, top = p["left"] * q.w // WHOLE, p["top"] * q.h // WHOLE
    return left, top, max(left + 1, p["right"] * q.w // WHOLE), max(top + 1, p["bottom"] * q.h // WHOLE)


def orientation(p, q):
    w, h = (q.h, q.w) if p["swap"] else (q.w, q.h)
    return q.each_pixel(lambda x, y: q.pixel(*before_turn(p, q, x, y)), w, h)


def crop(p, q):
    left, top, right, bottom = kept(p, q)
    return q.each_pixel(lambda x, y: q.pixel(x + left, y + top), right - left, bottom - top)


def exposure(p, q):
    scale = p["gain"] * 2 ** (p.get("stops", 0) + 4)
    return q.each_value(lambda v, c: clamp((v - p["black"]) * scale // 65536))


def channelmixer(p, q):
    def pixel(x, y):
        rgb = q.pixel(x, y)
        return [clamp(sum(m * v for m, v in zip(row, rgb)) // 4096) for row in p["rows"]]

    return q.each_pixel(pixel)


def on_curve(nodes, v):
    if v < nodes[0][0]:
        return nodes[0][1]
    for (x, y), (u, w) in zip(nodes, nodes[1:]):
        if x <= v < u:
            return clamp(y + (v - x) * (w - y) // (u - x))
    return nodes[-1][1]


def tonecurve(p, q):
    curves = [p["nodes"]] * 3 if "nodes" in p else [p["red"], p["green"], p["blue"]]
    known = {}

    def value(v, c):
        if (v, c) not in known:
            known[v, c] = on_curve(curves[c], v)
        return known[v, c]

    return q.each_value(value)


def boxblur(p, q):
    def pixel(x, y):
        near = window(q, x, y, p["radius"])
        return [sum(q.pixel(u, v)[c] for u, v in near) // len(near) for c in range(3)]

    return q.each_pixel(pixel)


def sharpen(p, q):
    blurred = boxblur(p, q)
    pairs = zip(q.values, blurred.values)
    return Picture(q.w, q.h, [clamp(v + (v - b) * p["amount"] // 4096) for v, b in pairs])


# ---- blends


MODES = {
    "normal": lambda i, m: m,
    "multiply": lambda i, m: i * m // 65535,
    "screen": lambda i, m: i + m - i * m // 65535,
    "lighten": max,
    "darken": min,
    "add": lambda i, m: i + m,
    "subtract": lambda i, m: i - m,
    "difference": lambda i, m: abs(i - m),
    "average": lambda i, m: (i + m) // 2,
}


def coverage(mask, w, h, x, y):
    """How far a mask covers the pixel (x, y) of a source of these sides."""
    X, Y = 2 * x + 1, 2 * y + 1
    if mask is None:
        return WHOLE
    if mask["shape"] == "gradient":
        ax, ay = 2 * w * mask["ax"] // WHOLE, 2 * h * mask["ay"] // WHOLE
        return min(max(32768 + ((X - ax) * mask["dx"] + (Y - ay) * mask["dy"]) * mask["slope"] // 65536, 0), WHOLE)
    cx, cy = 2 * w * mask["cx"] // WHOLE, 2 * h * mask["cy"] // WHOLE
    ux, uy, a, b, feather = (mask[k] for k in ("ux", "uy", "a", "b", "feather"))
    p, q = (X - cx) * ux + (Y - cy) * uy, (Y - cy) * ux - (X - cx) * uy
    e = 65536 * (p**2 * b**2 + q**2 * a**2) // ((ux**2 + uy**2) * a**2 * b**2)
    if e <= 65536:
        return WHOLE
    return 0 if e >= 65536 + feather else 65536 * (65536 + feather - e) // feather


def blended(blend, sides, sources, i, m):
    """The output m over the input i; `sources` has the source's pixel of each of theirs."""
    mode, values = MODES[blend["mode"]], []
    for at, (x, y) in enumerate(sources):
        alpha = blend["opacity"] * coverage(blend["mask"], *sides, x, y) // 65536
        for v, o in zip(i.values[3 * at : 3 * at + 3], m.values[3 * at : 3 * at + 3]):
            values.append(clamp(v + alpha * (mode(v, o) - v) // 65536))
    return Picture(i.w, i.h, values)


# ---- scripts


def slot(item):
    return item["module"], item.get("instance", 0)


def edited(history, step):
    """The history after an edit."""
    (items, end, order), do = history, step["do"]
    if do == "set":
        items = items[:end]
        if items and slot(items[-1]) == slot(step):
            items = items[:-1]
        return items + [step], len(items) + 1, order
    if do == "select":
        return items, step["end"], order
    if do == "compress":
        last = {slot(item): i for i, item in enumerate(items[:end])}
        items = [item for i, item in enumerate(items[:end]) if last[slot(item)] == i]
        return items, len(items), order
    rest = [s for s in order if s != slot(step)]
    if do == "delete":
        gone = sum(slot(item) == slot(step) for item in items[:end])
        return [item for item in items if slot(item) != slot(step)], end - gone, rest
    return items, end, rest[: step["place"]] + [slot(step)] + rest[step["place"] :]


def last_history(script):
    opening = script.get("history")
    now = ([], 0, [(name, 0) for name in START])
    if opening:
        now = (opening["items"], opening["end"], [tuple(pair) for pair in opening["order"]])
    past, future, depth = [], [], script.get("settings", {}).get("undo_depth", 32)
    for step in script["steps"]:
        if step["do"] == "undo":
            future.append(now)
            now = past.pop()
        elif step["do"] == "redo":
            past.append(now)
            now = future.pop()
        elif step["do"] not in ("view", "second", "export", "thumbnail", "settle"):
            past, future = (past + [now])[-depth:], []
            now = edited(now, step)
    return now


def actives(history):
    """What is active, along the order: each instance's last item that counts, where it is enabled; and demosaic."""
    items, end, order = history
    for at in order:
        last = [item for item in items[:end] if slot(item) == at][-1:]
        if at[0] == "demosaic":
            yield {"module": "demosaic"}
        elif last and last[0].get("enabled", True):
            yield last[0]


def develop(script_path, source_path, out_path):
    script = json.loads(Path(script_path).read_text())
    settings = script.get("settings", {})
    picture = read_picture(source_path, settings.get("cfa"))
    sides, sources = (picture.w, picture.h), picture.places()
    for item in actives(last_history(script)):
        name, params, before = item["module"], item.get("params"), picture
        picture = globals()[name](params, before)
        if name == "orientation":
            sources = [sources[v * before.w + u] for u, v in (before_turn(params, before, *at) for at in picture.places())]
        if name == "crop":
            left, top, _, _ = kept(params, before)
            sources = [sources[(y + top) * before.w + x + left] for x, y in picture.places()]
        if item.get("blend"):
            picture = blended(item["blend"], sides, sources, before, picture)
    write_picture(out_path, picture, settings.get("depth", 8))


# ---- what the commands of the documents write


def write_answers():
    from commands import PAGES, answers, blocks

    known = answers()
    shown = [l for page in PAGES for language, lines in blocks((TOP / page).read_text()) if language == "sh" for l in lines]
    head = [l for l in WRITTEN.read_text().splitlines() if l.startswith("#")]
    with tempfile.TemporaryDirectory() as room:
        os.chdir(room)
        os.symlink(TOP / "examples", "examples")
        lines = []
        for command in dict.fromkeys(shown):
            words = shlex.split(command)
            if command.startswith("python3 examples/"):
                subprocess.run(words, check=True)
            if not command.startswith("bin/devcore "):
                continue
            status, files = known.get(command, (0, {}))
            if status == 0 and words[1] == "develop":
                develop(*words[2:5])
                files = {words[4]: hashlib.sha256(Path(words[4]).read_bytes()).hexdigest()}
            lines += [f"{command} -> {status}"] + [f"{digest}  {name}" for name, digest in files.items()]
    WRITTEN.write_text("\n".join(head + lines) + "\n")


if __name__ == "__main__":
    if len(sys.argv) == 4:
        develop(*sys.argv[1:])
    else:
        write_answers()
