"""The largest t along a run, for the library and for the controls, one above the other with one axis of instructions, as SVG."""
import json, math, sys

LEFT, WIDTH, HEIGHT, GAP, TOP = 50, 900, 110, 34, 30
LOWEST, HIGHEST, LINES = 1, 300, (4.5, 8, 30, 100, 300)
FOOT = "Across: the instructions of one run, with its stages. Up: the largest t in each of 600 parts; 300 stands for more. At the foot nothing depends on a mask."
TITLES = {
    "decapsulation": "masked decapsulation, as the library is built",
    "zero-shares": "control: first shares that are all 0",
    "open-and": "control: an And that joins the shares of an operand",
    "open-equal-bit": "control: the equal bit opened",
}


def height(t):
    """Of a point above the panel's foot: the scale is logarithmic."""
    return HEIGHT * math.log(min(max(t, LOWEST), HIGHEST) / LOWEST) / math.log(HIGHEST / LOWEST)


def text(x, y, words, more=""):
    return f'<text x="{x:.1f}" y="{y:.1f}" {more}>{words}</text>'


def panel(result, top):
    foot, across = top + HEIGHT, WIDTH / result["instructions"]
    yield text(LEFT, top - 18, f'{TITLES[result["name"]]}; {result["runs"]} runs under each key', 'class="title"')
    for t in LINES:
        y = foot - height(t)
        yield f'<path d="M{LEFT} {y:.1f}h{WIDTH}" class="{"limit" if t == 8 else "line"}"/>' + text(LEFT - 6, y + 3, t, 'text-anchor="end"')
    ends = [start for _, start in result["stages"][1:]] + [result["instructions"]]
    for (name, start), end in zip(result["stages"], ends):
        x = LEFT + start * across
        yield f'<path d="M{x:.1f} {top}v{HEIGHT}" class="stage"/>'
        label = name.replace("stage ", "")
        if (end - start) * across > 5 * len(label) or end == result["instructions"]:
            yield text(x + max((end - start) * across / 2, 5), top - 4, label, 'text-anchor="middle"')
    bin_width = WIDTH / len(result["bins"])
    points = " ".join(f"{LEFT + (i + 0.5) * bin_width:.1f},{foot - height(t):.1f}" for i, t in enumerate(result["bins"]))
    yield f'<polyline points="{points}"/>'


def draw(file, folder, names):
    if not (folder / f"{names[0]}.json").exists():
        sys.exit("no results yet: run tools/campaign first, and with each --control")
    results = [json.loads((folder / f"{n}.json").read_text()) for n in names if (folder / f"{n}.json").exists()]
    step = HEIGHT + GAP
    lines = [
        f'<svg xmlns="http://www.w3.org/2000/svg" viewBox="0 0 {LEFT + WIDTH + 20} {TOP + step * len(results) + 6}" font-family="sans-serif" font-size="10">',
        "<style>.line,.stage{stroke:#ccc;stroke-width:.6}.limit{stroke:#c00;stroke-width:1}.title{font-size:12px}polyline{fill:none;stroke:#024;stroke-width:.8}</style>",
        '<rect width="100%" height="100%" fill="#fff"/>',
    ]
    for i, result in enumerate(results):
        lines += panel(result, TOP + step * i)
    lines.append(text(LEFT, TOP + step * len(results) - 8, FOOT))
    file.write_text("\n".join(lines + ["</svg>", ""]))
