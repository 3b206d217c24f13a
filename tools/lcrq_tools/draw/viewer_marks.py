"""Pictures, moments and pages take from here the marks of viewers, beside the lines and steps that they asked.

A mark is `V` with the viewer's number in a frame. There are eight frames, one for each of the first
eight viewers; the next eight have them dark, and so on in turn. So marks differ without any colour.
"""

from collections.abc import Collection
from xml.etree.ElementTree import Element

from lcrq_tools.draw.figure import DARK, GROUND, SMALL, element, group, number, width_of, words_at

# Sizes, in pixels: half of how high a frame is, how far its ends are beyond its words, the room around it.
HALF, END, AROUND = 7.0, 5.0, 1.0
HIGH = 2 * (HALF + AROUND)

# The corners of the frames: at the left or the right, how far beyond the words, and up, in the middle or
# down. The frame without corners is round at its ends.
FRAMES: list[list[tuple[int, float, int]]] = [
    [(-1, 2, -1), (1, 2, -1), (1, 2, 1), (-1, 2, 1)],  # straight
    [],
    [(-1, 0, -1), (1, 0, -1), (1, END, 0), (1, 0, 1), (-1, 0, 1), (-1, END, 0)],  # pointed at both ends
    [(-1, END, -1), (1, END, -1), (1, 0, 0), (1, END, 1), (-1, END, 1), (-1, 0, 0)],  # notched at both ends
    [(-1, 1, -1), (1, 0, -1), (1, END, 0), (1, 0, 1), (-1, 1, 1)],  # pointed at the right
    [(-1, 0, -1), (1, 1, -1), (1, 1, 1), (-1, 0, 1), (-1, END, 0)],  # pointed at the left
    [(-1, 0, -1), (1, END, -1), (1, 0, 1), (-1, END, 1)],  # slanted
    [(-1, 0, -1), (1, 0, -1), (1, END, 1), (-1, END, 1)],  # wide below
]


def viewer_name(viewer: int) -> str:
    """A viewer in words."""
    return f"viewer {viewer}"


def label_of(viewer: int) -> str:
    """What is in a mark."""
    return f"V{viewer}"


def half_of(viewer: int) -> float:
    """Half of how wide the words of a mark are, with a little room."""
    return width_of(label_of(viewer), SMALL, True) / 2 + 1


def width_of_marks(viewers: Collection[int]) -> float:
    """How much room the widest of these marks takes; none where there is no viewer."""
    return max((2 * (half_of(viewer) + END + AROUND) for viewer in viewers), default=0.0)


def outline(viewer: int, x: float, y: float) -> str:
    """The outline of a frame around this point."""
    half, corners = half_of(viewer), FRAMES[(viewer - 1) % len(FRAMES)]
    if not corners:
        wide = half + END - HALF
        arc, across, high = f"a{number(HALF)} {number(HALF)} 0 0 1 0 ", number(2 * wide), number(2 * HALF)
        return f"M{number(x - wide)} {number(y - HALF)}h{across}{arc}{high}h-{across}{arc}-{high}z"
    ends = ((x + side * (half + beyond), y + HALF * down) for side, beyond, down in corners)
    return "M" + "L".join(f"{number(across)} {number(down)}" for across, down in ends) + "z"


def is_dark(viewer: int) -> bool:
    """Whether a viewer's frame is dark, with light words."""
    return (viewer - 1) // len(FRAMES) % 2 == 1


def mark_at(viewer: int, x: float, y: float) -> Element:
    """A viewer's mark around this point."""
    words, ground = (GROUND, DARK) if is_dark(viewer) else (DARK, GROUND)
    frame = element("path", d=outline(viewer, x, y), fill=ground, stroke=DARK, stroke_width=1.2)
    label = words_at(x, y + 3.6, label_of(viewer), SMALL, words, "middle", True)
    return group("viewer", [frame, label], data_viewer=viewer)
