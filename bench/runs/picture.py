"""A large mosaic, and a script with fourteen active module instances, two of them blended by masks."""
import os


def make_mosaic(folder, w, h):
    """Writes source.pgm: samples of 14 bits, by an RGGB filter array."""
    rows = [b"".join(((x * 2 + y * 3 + (x * y) % 251) % 15000 + 600).to_bytes(2, "big") for x in range(w)) for y in range(40)]
    with open(os.path.join(folder, "source.pgm"), "wb") as out:
        out.write(b"P5\n%d %d\n16383\n" % (w, h))
        for y in range(h):
            out.write(rows[y % 40])


def fourteen():
    """The script; its last item is the last module's, `exposure` 3."""
    curve = [[0, 0], [8000, 7000], [30000, 36000], [65535, 65535]]
    exposure = lambda gain: {"black": 100, "gain": gain}
    sets = [
        ("rawprepare", 0, {"black": [512, 512, 512], "white": 16000}, None),
        ("temperature", 0, {"mul": [8000, 4096, 6000]}, None),
        ("orientation", 0, {"swap": False, "flip_x": True, "flip_y": False}, None),
        ("crop", 0, {"left": 0, "top": 0, "right": 65536, "bottom": 65536}, None),
        ("exposure", 0, exposure(5000), None),
        ("channelmixer", 0, {"rows": [[4300, -100, -104], [-50, 4196, -50], [-104, -200, 4400]]}, None),
        ("tonecurve", 0, {"nodes": curve}, None),
        ("exposure", 1, exposure(6000), {"opacity": 50000, "mode": "normal", "mask": {"shape": "gradient", "ax": 32768, "ay": 20000, "dx": 300, "dy": 900, "slope": 900}}),
        ("tonecurve", 1, {"nodes": curve}, {"opacity": 40000, "mode": "screen", "mask": {"shape": "ellipse", "cx": 30000, "cy": 36000, "ux": 900, "uy": 400, "a": 4000, "b": 2500, "feather": 65536}}),
        ("channelmixer", 1, {"rows": [[4096, 0, 0], [0, 4096, 0], [100, 100, 3896]]}, None),
        ("exposure", 2, exposure(4200), None),
        ("tonecurve", 2, {"nodes": curve}, None),
        ("exposure", 3, exposure(3900), None),
    ]
    order = [["rawprepare", 0], ["temperature", 0], ["demosaic", 0]] + [[m, i] for m, i, _, _ in sets[2:]]
    items = [{"module": m, "instance": i, "params": p, "blend": b} for m, i, p, b in sets]
    return {"settings": {"cfa": "RGGB"}, "history": {"items": items, "end": len(items), "order": order}, "steps": []}
