#!/usr/bin/env python3
"""Rehearses updates of chains, grids, stars and full graphs, and writes the plots and tables of docs/SCALE.md.

    examples/scale.py FOLDER        writes FOLDER/scale-minutes.svg, FOLDER/scale-bytes.svg, and the tables to standard output

`deluge_rehearse` and `deluge_cost` are looked for on the path. It needs Python 3 and nothing else; a run takes some minutes.
"""
import random
import re
import subprocess
import sys
import tempfile

PAGES = [2, 3, 5, 9, 17, 33, 65]
PAGE = 1104


def hex_file(length):
    """An image of drawn bytes as Intel HEX."""
    draw = random.Random(length)
    image = bytes(draw.randrange(256) for _ in range(length))
    lines, base = [], 0

    def line(kind, address, data):
        record = bytes([len(data), address >> 8 & 255, address & 255, kind]) + data
        lines.append(":" + (record + bytes([-sum(record) & 255])).hex().upper())

    for at in range(0, length, 16):
        if at >> 16 != base:
            base = at >> 16
            line(4, 0, bytes([base >> 8, base & 255]))
        line(0, at & 0xFFFF, image[at : at + 16])
    line(1, 0, b"")
    return "\n".join(lines) + "\n"


def links(kind, motes):
    if kind == "chain":
        return [(i, i + 1) for i in range(motes - 1)]
    if kind == "star":
        return [(0, i) for i in range(1, motes)]
    if kind == "full":
        return [(i, j) for i in range(motes) for j in range(i + 1, motes)]
    side = round(motes**0.5)
    right = [(i, i + 1) for i in range(motes) if i % side < side - 1]
    return right + [(i, i + side) for i in range(motes - side)]


def rehearse(kind, motes, pages, seed=0, loss=0):
    """The seconds of the schedule, and the script."""
    with tempfile.NamedTemporaryFile("w", suffix=".toml") as profile:
        pairs = ", ".join(f"[{a}, {b}]" for a, b in links(kind, motes))
        profile.write(f"motes = {motes}\nport = 20000\nlinks = [{pairs}]\n")
        profile.flush()
        words = ["deluge_rehearse", "--image", "1", "--ver", "1", "--name", "scale", "--minutes", "60000"]
        words += ["--seed", str(seed), "--loss", str(loss), profile.name]
        done = subprocess.run(words, input=hex_file((pages - 1) * PAGE - 50).encode(), capture_output=True)
    if done.returncode != 0:
        sys.exit(done.stderr.decode())
    told = re.search(r"after (\d+) min (\d+) s", done.stderr.decode())
    return int(told[1]) * 60 + int(told[2]), done.stdout


def cost(script):
    """The sums of `deluge_cost` over all motes."""
    rows = subprocess.run(["deluge_cost", "--csv"], input=script, capture_output=True, check=True).stdout.decode()
    parts = (row.split(",") for row in rows.splitlines())
    return {key: int(value) for mote, key, value in parts if mote == "all" and value.isdigit()}


STYLE = """<style>
text { font: 12px sans-serif; fill: #222 } .axis { stroke: #888; fill: none } .grid { stroke: #ddd }
.line { fill: none; stroke-width: 2 } .c0 { stroke: #0072b2 } .c1 { stroke: #d55e00 } .c2 { stroke: #009e73 }
.c3 { stroke: #cc79a7 } .c4 { stroke: #56b4e9 }
@media (prefers-color-scheme: dark) { text { fill: #ddd } .grid { stroke: #444 } .axis { stroke: #999 } }
</style>"""
DASHES = ["none", "8 3", "2 3", "10 3 2 3", "5 5"]


def plot(path, title, unit, series, top, step):
    """Lines over the pages of an image: each series is a name and a value for each number of pages."""
    width, height, left, low = 720, 400, 60, 340
    x = lambda pages: left + 500 * pages / 65
    y = lambda value: low - 300 * value / top
    out = [f'<svg xmlns="http://www.w3.org/2000/svg" viewBox="0 0 {width} {height}" role="img">']
    out += [f"<title>{title}</title>", STYLE, f'<text x="{left}" y="20">{title}</text>']
    value = 0
    while value <= top:
        out.append(f'<path class="grid" d="M{left} {y(value):.1f}H{left + 500}"/>')
        out.append(f'<text x="{left - 8}" y="{y(value) + 4:.1f}" text-anchor="end">{value}</text>')
        value += step
    for pages in (2, 9, 17, 33, 65):
        out.append(f'<text x="{x(pages):.1f}" y="{low + 18}" text-anchor="middle">{pages}</text>')
    out.append(f'<text x="{left + 250}" y="{low + 40}" text-anchor="middle">pages of the image</text>')
    out.append(f'<text x="{left}" y="36">{unit}</text><path class="axis" d="M{left} 40V{low}H{left + 500}"/>')
    ends = sorted(((values[-1], number) for number, (_, values) in enumerate(series)), reverse=True)
    at = {}
    last = -100.0
    for value, number in ends:
        last = max(y(value) + 4, last + 14)
        at[number] = last
    for number, (name, values) in enumerate(series):
        points = " ".join(f"{x(p):.1f},{y(v):.1f}" for p, v in zip(PAGES, values))
        dash = DASHES[number % 5]
        out.append(f'<polyline class="line c{number % 5}" stroke-dasharray="{dash}" points="{points}"/>')
        out.append(f'<text x="{left + 508}" y="{at[number]:.1f}">{name}</text>')
    out.append("</svg>\n")
    with open(path, "w") as file:
        file.write("\n".join(out))


def main():
    folder = sys.argv[1]
    kinds = [("chain", 16), ("grid", 16), ("full", 8), ("chain", 4), ("star", 16)]
    minutes, volume = [], []
    print("| network | pages | time, s | frames | bytes, k | adverts, % of bytes | packets sent | erases | events |")
    print("|---|---|---|---|---|---|---|---|---|")
    for kind, motes in kinds:
        times, sent = [], []
        for pages in PAGES:
            seconds, script = rehearse(kind, motes, pages)
            told = cost(script)
            of = lambda key: told.get(key, 0)
            times.append(seconds / 60)
            sent.append(of("sent.bytes") / 1000)
            if pages in (3, 17, 65):
                adverts = round(100 * (of("sent.wide.bytes") + of("sent.advert.bytes")) / of("sent.bytes"))
                print(f"| {kind} of {motes} | {pages} | {seconds} | {of('sent.frames')} | {of('sent.bytes') // 1000}"
                      f" | {adverts} | {of('sent.packet.count')} | {of('flash.run.erase.count')} | {script.count(10)} |")
        minutes.append((f"{kind} of {motes}", times))
        volume.append((f"{kind} of {motes}", sent))
    plot(f"{folder}/scale-minutes.svg", "How long an update takes", "minutes", minutes, 35, 5)
    plot(f"{folder}/scale-bytes.svg", "How many bytes all motes send", "kilobytes", volume, 2500, 500)
    print("\n| loss, % | chain of 4 | grid of 16 | star of 16 | full graph of 8 |")
    print("|---|---|---|---|---|")
    for loss in (0, 5, 10, 20, 30, 50):
        row = [sorted(rehearse(kind, motes, 9, seed, loss)[0] for seed in range(5))[2]
               for kind, motes in (("chain", 4), ("grid", 16), ("star", 16), ("full", 8))]
        print(f"| {loss} | " + " | ".join(map(str, row)) + " |")


if __name__ == "__main__":
    main()
