"""The programs that `tests/release` runs over what a release has, and `tests/from_clone` over what a clone builds, and
the files that the recipes of docs/OPTIONS.md read."""

# What the recipes read besides the font.
DOCUMENTS = {"letter.txt": "Dear Áron,\nyours ever\n", "poem.txt": "Ξεσκεπάζω την ψυχοφθόρα\nβδελυγμία\n",
             "unicode-range.txt": "U+370-3FF, U+1F00-1FFF\n"}

# The lines of docs/OPTIONS.md stand in the place of CALLS.
C_PROGRAM = """
#include <fontcut.h>
#include <stdio.h>
#include <stdlib.h>
int main(int count, char **words)
{
    size_t room = 1 << 21;
    uint8_t *font = malloc(room), *out = malloc(room);
    FILE *file = count == 2 && font && out ? fopen(words[1], "rb") : NULL;
    if (!file) return 3;
    size_t font_length = fread(font, 1, room, file);
CALLS
    return (int)cut.status;
}
"""

RUST_MANIFEST = """
[package]
name = "user"
version = "0.0.0"
edition = "2021"

[dependencies]
fontcut = { path = "../CRATE" }
"""

RUST_PROGRAM = """
use fontcut::{join, Cut, Font, Kind, Ranges};
use std::io::Write;

fn main() -> Result<(), Box<dyn std::error::Error>> {
    let file = std::fs::read(std::env::args().nth(1).ok_or("no font")?)?;
    let font = Font::new(&file)?;
    let wanted: [Ranges; 2] = [('A'..='Z').collect(), ('a'..='z').collect()];
    let cuts: Vec<Cut> = wanted.iter().map(|it| font.cut(Kind::Lean, it)).collect::<Result<_, _>>()?;
    std::io::stdout().write_all(&join(Kind::Lean, &cuts)?)?;
    Ok(())
}
"""

# Its words are a font, and a folder for what it makes.
FROM_PYTHON = """
import sys
import fontcut
with open(sys.argv[1], "rb") as opened:
    font = opened.read()
made = {"latin": fontcut.cut(font, [(0x20, 0x7E), (0xA0, 0xFF)]),
        "lean": fontcut.cut(font, range(0x41, 0x5B), kind="lean"),
        "other": fontcut.cut(font, range(0x61, 0x7B), kind="lean")}
made["join"] = fontcut.join([made["other"], made["lean"]], kind="lean")
for name, data in made.items():
    with open(f"{sys.argv[2]}/{name}.ttf", "wb") as out:
        out.write(data)
print(fontcut.__version__, fontcut.belongs(made["join"], font, kind="lean"))
"""

# Its words are fonts: it prints the sums of cuts and of a join, of each kind, for each.
DIGESTS = """
import hashlib, sys
import fontcut
for path in sys.argv[1:]:
    with open(path, "rb") as opened:
        font = opened.read()
    for kind in "full", "lean", "layout", "variable":
        cuts = fontcut.slices(font, [[(0x20, 0x7E)], [(0xA0, 0x17F)]], kind=kind)
        for data in *cuts, fontcut.join(cuts, kind=kind):
            print(hashlib.sha256(data).hexdigest())
"""

# Prints the lean cut of a font for ASCII, as a program in node gets it that has the package installed.
FOR_NODE = """import { readFileSync } from 'node:fs';
import { init, initTexts, subset } from 'fontcut';
import 'fontcut/growing';
await Promise.all([init(), initTexts()]);
const wanted = { unicodes: 'U+20-7E', kind: 'lean' };
process.stdout.write(subset(readFileSync(process.argv[2]), wanted));
"""

USER_OF_TYPES = '''
import fontcut
from fontcut import Form, Range, Refused


def slices(path: str, wanted: list[tuple[int, int]]) -> list[bytes]:
    with open(path, "rb") as file:
        font = file.read()
    known: list[Range] = fontcut.codes(font)
    print(sum(last - first + 1 for first, last in known), fontcut.cut_size(font, wanted, kind="lean") + 1)
    return [fontcut.cut(font, [pair], kind="lean") for pair in wanted]


def joined(cuts: list[bytes]) -> bytes:
    try:
        return fontcut.join(cuts, kind="lean")
    except Refused as refused:
        print(refused.number + 1, refused.text.upper(), refused.argument, refused.file)
        raise


both: bytes = joined(slices("font.ttf", [(0x41, 0x5A), (0x61, 0x7A)]))
print(fontcut.form(both) is Form.LEAN, fontcut.belongs(both, memoryview(both), kind="lean"),
      fontcut.__version__.upper())
'''
