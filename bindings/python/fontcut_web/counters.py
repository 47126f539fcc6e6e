"""The characters of the numbers and marks that browsers write: counter styles (CSS Counter Styles 3) and marks of
emphasis (CSS Text Decoration 3)."""
from __future__ import annotations

import re
from typing import Dict, Iterator

# The digit zero of styles of ten digits.
_ZEROS = {"decimal": 0x30, "decimal-leading-zero": 0x30, "arabic-indic": 0x660, "bengali": 0x9E6, "cambodian": 0x17E0,
          "khmer": 0x17E0, "devanagari": 0x966, "gujarati": 0xAE6, "gurmukhi": 0xA66, "kannada": 0xCE6, "lao": 0xED0,
          "malayalam": 0xD66, "mongolian": 0x1810, "myanmar": 0x1040, "oriya": 0xB66, "persian": 0x6F0, "tamil": 0xBE6,
          "telugu": 0xC66, "thai": 0xE50, "tibetan": 0xF20}
_DIGITS = "".join(map(chr, range(0x30, 0x3A)))
_LATIN = "abcdefghijklmnopqrstuvwxyz"
_GREEK = "".join(map(chr, (*range(0x3B1, 0x3C2), *range(0x3C3, 0x3CA))))
_ARMENIAN = "".join(map(chr, range(0x531, 0x555)))
_HIRAGANA = ("\u3042\u3044\u3046\u3048\u304a\u304b\u304d\u304f\u3051\u3053\u3055\u3057\u3059\u305b\u305d\u305f\u3061"
             "\u3064\u3066\u3068\u306a\u306b\u306c\u306d\u306e\u306f\u3072\u3075\u3078\u307b\u307e\u307f\u3080\u3081"
             "\u3082\u3084\u3086\u3088\u3089\u308a\u308b\u308c\u308d\u308f\u3090\u3091\u3092\u3093")
_KATAKANA = "".join(chr(ord(letter) + 0x60) for letter in _HIRAGANA)
_CHINESE = "\u3007\u4e00\u4e8c\u4e09\u56db\u4e94\u516d\u4e03\u516b\u4e5d"
_TENS, _BANKERS = "\u5341\u767e\u5343", "\u96f6\u62fe\u4f70\u4edf\u8086\u4f0d\u67d2\u634c\u7396\u58f9"
_SIMPLIFIED, _TRADITIONAL = "\u4e07\u4ebf\u8d1f", "\u842c\u5104\u8ca0"
_MINUS, _KOREAN_MINUS = "\u30de\u30a4\u30ca\u30b9", "\ub9c8\uc774\ub108\uc2a4"
_STEMS = "\u7532\u4e59\u4e19\u4e01\u620a\u5df1\u5e9a\u8f9b\u58ec\u7678"
_BRANCHES = "\u5b50\u4e11\u5bc5\u536f\u8fb0\u5df3\u5348\u672a\u7533\u9149\u620c\u4ea5"
# The symbols of the other styles, and what stands behind them that is no dot and no blank. A style that ends somewhere
# goes on in decimal numbers.
_SYMBOLS: Dict[str, str] = {
    "lower-alpha": _LATIN, "lower-latin": _LATIN, "upper-alpha": _LATIN.upper(), "upper-latin": _LATIN.upper(),
    "lower-roman": f"ivxlcdm{_DIGITS}", "upper-roman": f"IVXLCDM{_DIGITS}", "lower-greek": _GREEK,
    "armenian": _ARMENIAN + _DIGITS, "upper-armenian": _ARMENIAN + _DIGITS,
    "lower-armenian": _ARMENIAN.lower() + _DIGITS,
    "georgian": "".join(map(chr, range(0x10D0, 0x10F6))) + _DIGITS,
    "hebrew": "".join(map(chr, range(0x5D0, 0x5EB))) + f"\u05f3{_DIGITS}",
    "hiragana": f"{_HIRAGANA}\u3001", "katakana": f"{_KATAKANA}\u3001",
    "hiragana-iroha": f"{_HIRAGANA}\u3001", "katakana-iroha": f"{_KATAKANA}\u3001",
    "cjk-decimal": f"{_CHINESE}\u3001", "cjk-earthly-branch": f"{_BRANCHES}{_CHINESE}\u3001",
    "cjk-heavenly-stem": f"{_STEMS}{_CHINESE}\u3001",
    "japanese-informal": f"{_CHINESE}{_TENS}\u4e07{_MINUS}\u3001",
    "japanese-formal": f"\u96f6\u58f1\u5f10\u53c2\u56db\u4f0d{_CHINESE[6:]}\u62fe\u767e\u9621\u842c{_MINUS}\u3001",
    "simp-chinese-informal": f"\u96f6{_CHINESE[1:]}{_TENS}{_SIMPLIFIED}\u3001",
    "simp-chinese-formal": f"{_BANKERS}\u8d30\u53c1\u9646{_SIMPLIFIED}\u3001",
    "trad-chinese-informal": f"\u96f6{_CHINESE[1:]}{_TENS}{_TRADITIONAL}\u3001",
    "trad-chinese-formal": f"{_BANKERS}\u8cb3\u53c3\u9678{_TRADITIONAL}\u3001",
    "cjk-ideographic": f"\u96f6{_CHINESE[1:]}{_TENS}{_TRADITIONAL}\u3001",
    "korean-hangul-formal": "\uc601\uc77c\uc774\uc0bc\uc0ac\uc624\uc721\uce60\ud314\uad6c\uc2ed\ubc31\ucc9c\ub9cc"
                            f", {_KOREAN_MINUS}",
    "korean-hanja-informal": f"\u96f6{_CHINESE[1:]}{_TENS}\u842c, {_KOREAN_MINUS}",
    "korean-hanja-formal": f"\u96f6\u58f9\u8cb3\u53c3{_CHINESE[4:]}\u62fe\u767e\u4edf\u842c, {_KOREAN_MINUS}",
    "ethiopic-numeric": "".join(map(chr, range(0x1369, 0x137D))) + "/"}
# Marks that lists have as shapes, and a text of `content` as characters; those of emphasis, filled and open.
_MARKS = {"disc": "\u2022", "circle": "\u25e6", "square": "\u25aa", "disclosure-open": "\u25be",
          "disclosure-closed": "\u25b8\u25c2"}
_EMPHASIS = {"dot": "\u2022\u25e6", "circle": "\u25cf\u25cb", "double-circle": "\u25c9\u25ce",
             "triangle": "\u25b2\u25b3", "sesame": "\ufe45\ufe46"}
_DEFAULT_EMPHASIS = "\u25cf\u25cb\ufe45\ufe46"
# The styles that the attribute `type` of lists names (HTML, Rendering, Lists).
_TYPES = {"a": "lower-alpha", "A": "upper-alpha", "i": "lower-roman", "I": "upper-roman", "1": "decimal"}
_WORD = re.compile(r"[a-z-]+")


def digits() -> str:
    """The characters of numbers of a list without a style."""
    return f"-{_DIGITS}. "


def _of(style: str) -> str:
    """The characters of numbers in a style, or an empty text where a browser knows no such style."""
    if style in _ZEROS:
        return "-. " + "".join(chr(_ZEROS[style] + number) for number in range(10))
    return f"-. {_SYMBOLS[style]}" if style in _SYMBOLS else ""


def of_styles(value: str, has_marks: bool = False) -> Iterator[str]:
    """The characters of the counter styles that are named in a value of CSS. Marks as discs are characters in a text
    alone, and shapes in a list."""
    for word in _WORD.findall(value.lower()):
        yield from filter(None, [_of(word), _MARKS.get(word, "") if has_marks else ""])


def of_type(kind: str) -> str:
    """The characters of numbers in a list with this attribute `type`."""
    return _of(_TYPES.get(kind.strip(), ""))


def of_emphasis(value: str) -> Iterator[str]:
    """The marks of emphasis that are named in a value of CSS."""
    words = _WORD.findall(value.lower())
    named = [_EMPHASIS[word] for word in words if word in _EMPHASIS]
    yield from named or ([_DEFAULT_EMPHASIS] if {"filled", "open"} & set(words) else [])
