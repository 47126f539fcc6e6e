"""The colours that pictures of matplotlib's have where the page is dark, as browsers and GitHub follow it."""
import re

# Each colour that a picture is drawn in, and what stands in its place.
DARK = {"#ffffff": "#0d1117", "#000000": "#d0d0d0", "#dddddd": "#30363d", "#8a8a8a": "#a8b0b8", "#0b5394": "#58a6ff",
        "#d9730d": "#f0a04b", "#5b8c3e": "#7ecb5a", "#a64d79": "#e884bb"}
# Where matplotlib begins and ends its own rules, and an element that says its colours.
BEGIN, END = '<style type="text/css">', "</style>"
COLOURED = r"(?:fill|stroke): (#\w+)"


def rules() -> str:
    """The rules of the dark form. Each element has its colours in its `style`, and no class; a text has none."""
    lines = [f'[style*="{what}: {light}"] {{ {what}: {dark} !important }}'
             for light, dark in DARK.items() for what in ("fill", "stroke")]
    return "\n".join(["@media (prefers-color-scheme: dark) {", f"text {{ fill: {DARK['#000000']} }}", *lines, "}"])


def added(picture: str) -> str:
    """A picture of matplotlib's with the dark form in the place of that which it has, if any. A colour without a
    counterpart is a ValueError."""
    before, _, rest = picture.partition(BEGIN)
    own, _, after = rest.partition(END)
    lost = {*re.findall(COLOURED, after)} - {*DARK}
    if lost:
        raise ValueError(f"colours without a dark counterpart: {', '.join(sorted(lost))}")
    return f"{before}{BEGIN}{own.partition('@media')[0].rstrip()}\n{rules()}\n  {END}{after}"
