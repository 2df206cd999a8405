#!/usr/bin/env python3
"""Draws the layers of crates.txt: python3 docs/layers.py crates.txt > docs/layers.svg

A line `# -- NAME` in crates.txt begins a layer. Below the name of a layer stand the layers that it rests on. Within a layer a crate stands above the
crates that it rests on, with a line to each of them that is not reached through another one.
"""
import sys

BOX, GAP, LINE, EDGE = 22, 16, 40, 190
layers, uses = [], {}
for text in open(sys.argv[1], encoding="utf-8"):
    if text.startswith("# -- "):
        layers.append((text[5:].strip(), []))
    elif ":" in text and not text.startswith("#"):
        head, rest = text.split(":")
        name = head.split()[0]
        uses[name] = rest.split()
        layers[-1][1].append(name)
for name in uses:
    uses[name] = [u for u in uses[name] if u in uses]
direct = {n: [u for u in us if not any(u in uses[v] for v in us)] for n, us in uses.items()}


def width(name):
    return 9 + 7.3 * len(name)


def rows(names):
    """The crates of a layer, those that rest on others of it above them."""
    depth = {}
    for n in names:
        depth[n] = 1 + max([depth[u] for u in uses[n] if u in depth], default=-1)
    return [[n for n in names if depth[n] == d] for d in range(max(depth.values()), -1, -1)]


def below(names):
    """The other layers that the crates of a layer rest on directly."""
    found = {u for n in names for u in direct[n]}
    return [title for title, others in layers if others is not names and found & set(others)]


def span(row):
    return sum(width(n) for n in row) + GAP * (len(row) - 1)


inner = max(span(row) for title, names in layers for row in rows(names))
bands, at, y = [], {}, GAP
for title, names in reversed(layers):
    top = y
    y += GAP / 2
    for row in rows(names):
        x = EDGE + (inner - span(row)) / 2
        for n in row:
            at[n] = (x, y)
            x += width(n) + GAP
        y += LINE
    bands.append((title, below(names), top, y))
    y += GAP / 2
right = EDGE + inner + GAP
out = ['<svg xmlns="http://www.w3.org/2000/svg" viewBox="0 0 %d %d" width="%d" height="%d" font-family="monospace" font-size="12">' % (right, y, right, y)]
out.append('<rect width="%d" height="%d" fill="#ffffff"/>' % (right, y))
for i, (title, others, top, low) in enumerate(bands):
    out.append('<rect x="4" y="%.0f" width="%.0f" height="%.0f" rx="6" fill="%s"/>' % (top, right - 8, low - top, ("#eef3f8", "#f7f4ec")[i % 2]))
    out.append('<text x="14" y="%.0f" font-family="sans-serif" font-size="13" font-weight="bold" fill="#333333">%s</text>' % (top + 22, title))
    for j in range(0, len(others), 3):
        words = ("on " if j == 0 else "") + ", ".join(others[j : j + 3]) + ("," if j + 3 < len(others) else "")
        out.append('<text x="14" y="%.0f" font-family="sans-serif" font-size="11" fill="#666666">%s</text>' % (top + 37 + 4 * j, words))
for n in sorted(direct):
    for u in [u for u in direct[n] if any(n in names and u in names for title, names in layers)]:
        a, b = at[n], at[u]
        out.append('<line x1="%.1f" y1="%.1f" x2="%.1f" y2="%.1f" stroke="#8090a0" stroke-width="1.2"/>' % (a[0] + width(n) / 2, a[1] + BOX, b[0] + width(u) / 2, b[1]))
for n, (x, top) in at.items():
    out.append('<rect x="%.1f" y="%.1f" width="%.1f" height="%d" rx="4" fill="#ffffff" stroke="#556677"/>' % (x, top, width(n), BOX))
    out.append('<text x="%.1f" y="%.1f" text-anchor="middle" fill="#111111">%s</text>' % (x + width(n) / 2, top + 15, n))
print("\n".join(out + ["</svg>"]))
