"""Into which file of the program each function goes."""

# For each file the beginnings of names of functions; the longest beginning counts. The files take a compiler about as
# long each, so that some processors compile them side by side. What is called often stands with what calls it.
FILES = {
    "clap_parser": ["clap::parser", "clap::error"],
    "clap": ["clap"],
    "command_line": ["command_line", "strsim"],
    "commands": ["font_cmd"],
    "cuts": ["divided_tables", "font_subset", "font_write", "font_layout", "font_variations"],
    "joins": ["commands", "font_join", "map_union"],
    "fonts": ["cmap_subtables", "codes", "font_coverage", "font_file", "font_glyph", "font_map", "font_tables",
              "font_texts", "sfnt_bytes", "streams", "unicode_normalization", "variation_sequences",
              "wanted_characters"],
}
# All other functions, which are the kit's.
OTHERS = "standard"
FILE_OF = {beginning: file for file, beginnings in FILES.items() for beginning in beginnings}


def file_of(name: str) -> str:
    """The file of a function, by its name in Rattle."""
    path = name.split("::")
    beginnings = ("::".join(path[:count]) for count in range(len(path), 0, -1))
    return next((FILE_OF[beginning] for beginning in beginnings if beginning in FILE_OF), OTHERS)
