"""How much is read of a PDF file, and how many fonts are compared. This module needs no other package."""

# The most bytes that are read of the content of a page, a form or a glyph; of such content as is not plain, of which
# each operator takes hundreds of bytes of memory; of a font program, which is what fontcut takes at most; of ToUnicode;
# and of CIDToGIDMap, which has two bytes for each of 65,536 numbers.
MOST_OF_CONTENT, MOST_OF_OTHER, MOST_OF_PROGRAM, MOST_OF_TEXTS = 16 << 20, 2 << 20, 128 << 20, 4 << 20
MOST_OF_MAP = 128 << 10
# How many widths and texts, and bytes of text that is shown again, are looked at in one file.
MOST_WORK = 5_000_000
# With how many classes of fonts that do not agree, or do not join, a font is compared.
MOST_CLASSES = 16
# How many nodes of the page tree may stand below each other. In files of this world they are less than ten.
DEEPEST = 100
