"""A residual's picture, read back as XML, and the bars that it must have, reckoned from docs/RESIDUAL.md."""
import xml.etree.ElementTree as ElementTree

from reckoned import clock, compared, cut

SVG = "{http://www.w3.org/2000/svg}"


def drawn_bars(panel):
    """The bars of a channel's panel in order: from where, how wide, how many bits tall, and whether light or dark."""
    shades = {"#c4c4c4": "light", "#000": "dark"}
    for bar in panel.iter(SVG + "rect"):
        x, width, height = (int(bar.get(name)) for name in ("x", "width", "height"))
        yield x, width, height / 10, shades[bar.get("fill")]


def due_bars(first, second):
    """Up to 1,000 equal stretches: the bits of the largest sample of either file, then of the largest difference."""
    frames = len(first)
    n = min(1000, frames)
    for k in range(n):
        part = slice(k * frames // n, (k + 1) * frames // n)
        sample = max(map(abs, first[part] + second[part]))
        difference = max(abs(a - b) for a, b in zip(first[part], second[part]))
        for shade, number in (("light", sample), ("dark", difference)):
            yield k * 1000 // n, (k + 1) * 1000 // n - k * 1000 // n, number.bit_length(), shade


def shown(content):
    """What a picture shows: its title, and for each panel its first words, its times and its bars."""
    root = ElementTree.fromstring(content)
    title = root.find(SVG + "text").text
    panels = []
    for panel in root.findall(SVG + "g"):
        words = [text.text for text in panel.iter(SVG + "text")]
        panels.append((words[0], [word for word in words if ":" in word], list(drawn_bars(panel))))
    return title, panels


def due(first, second, skips=(0, 0), frames=None, channels=None):
    """The same of two sides, reckoned."""
    number = compared(first, second, skips, frames)
    times = [clock(n, first.rate) for n in (0, number // 2, number)]
    panels = []
    for c in channels or range(first.channels):
        bars = due_bars(cut(first, c, skips[0], number), cut(second, c, skips[1], number))
        panels.append((f"channel {c + 1}", times, list(bars)))
    return f"How far {first.name} and {second.name} differ", panels
