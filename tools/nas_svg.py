"""The few shapes of SVG 1.1 that a chart needs, as text."""
import math
from typing import NamedTuple
from xml.sax.saxutils import escape, quoteattr


class Pen(NamedTuple):
    """How a line is drawn: colours alone would be lost in print."""
    colour: str
    width: float = 1.6
    dash: str = "none"


def shape(name, content=None, **attributes):
    """An element; `_` in an attribute's name stands for `-`."""
    words = [name] + ["%s=%s" % (key.replace("_", "-"), quoteattr(number(value))) for key, value in attributes.items()]
    if content is None:
        return "<%s/>" % " ".join(words)
    return "<%s>%s</%s>" % (" ".join(words), content, name)


def number(value):
    """A number with at most one decimal, and any other value as text."""
    return ("%.1f" % value).rstrip("0").rstrip(".") if isinstance(value, float) else str(value)


def line(start, end, pen):
    """A line between two points."""
    return shape("line", x1=start[0], y1=start[1], x2=end[0], y2=end[1], stroke=pen.colour, stroke_width=pen.width,
                 stroke_dasharray=pen.dash)


def arrow(start, end, pen):
    """A line with a head at its end."""
    angle = math.atan2(end[1] - start[1], end[0] - start[0])
    wings = [(end[0] - 11 * math.cos(angle + turn), end[1] - 11 * math.sin(angle + turn)) for turn in (-0.35, 0.35)]
    points = " ".join("%.1f,%.1f" % point for point in [end] + wings)
    return line(start, end, pen) + shape("polygon", points=points, fill=pen.colour)


def cross(place, pen):
    """A cross, the end of what was lost."""
    x, y = place
    pen = pen._replace(width=2.4, dash="none")
    return line((x - 5, y - 5), (x + 5, y + 5), pen) + line((x - 5, y + 5), (x + 5, y - 5), pen)


def clock(place, pen):
    """A small clock, where a timer sent something."""
    x, y = place
    pen = pen._replace(width=1.4, dash="none")
    face = shape("circle", cx=x, cy=y, r=6, fill="white", stroke=pen.colour, stroke_width=pen.width)
    return face + line((x, y), (x, y - 4), pen) + line((x, y), (x + 3, y), pen)


def text(place, words, anchor="start", size=11, weight="normal", colour="black"):
    """A line of text; anchor is start, middle or end."""
    return shape("text", escape(words), x=place[0], y=place[1], text_anchor=anchor, font_size=size, font_weight=weight,
                 fill=colour)


def label(place, words, anchor="start", weight="normal"):
    """A line of text that stays readable over lines, on a ground of about its own width."""
    width = 6.6 * len(words)
    left = place[0] if anchor == "start" else place[0] - width
    ground = shape("rect", x=left - 2, y=place[1] - 10, width=width + 4, height=13, fill="white", fill_opacity=0.85)
    return ground + text(place, words, anchor, weight=weight)


def group(identity, title, parts):
    """A group of shapes with the text that a viewer shows beside the pointer."""
    return shape("g", shape("title", escape(title)) + "".join(parts), id=identity)


def document(width, height, parts):
    """The whole picture on a white ground."""
    ground = shape("rect", x=0, y=0, width=width, height=height, fill="white")
    inner = "\n".join([""] + [ground] + [part for part in parts if part] + [""])
    head = '<?xml version="1.0" encoding="UTF-8"?>\n'
    return head + shape("svg", inner, xmlns="http://www.w3.org/2000/svg", version="1.1", width=width, height=height,
                        viewBox="0 0 %s %s" % (number(width), number(height)), font_family="sans-serif") + "\n"
