"""Makes the data of viewers' marks on the page of a history; `page_viewers.js` draws them beside lines and steps."""

from collections.abc import Collection

from lcrq_tools.draw.viewer_marks import HIGH, is_dark, label_of, outline, width_of_marks


def marks_of(viewers: Collection[int]) -> dict[str, object]:
    """How large the marks of these viewers are, and of each the outline around its middle, the words and whether it
    is dark."""
    marks = {str(viewer): [outline(viewer, 0.0, 0.0), label_of(viewer), is_dark(viewer)] for viewer in sorted(viewers)}
    return {"wide": round(width_of_marks(viewers), 1), "high": HIGH, "of": marks}
