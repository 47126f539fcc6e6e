"""The words of LLVM's text, and the types and values that they make."""
import re
from typing import Mapping

from .errors import Refused
from .llvm import SIZES, VECTOR, Value, fields, lanes

WORD = re.compile(r'[%@]?"[^"]*"|c"[^"]*"|-?\d+\.\d+e[+-]\d+|[%@#!]?[-\w.$]+|\.\.\.|[^\s\w]')
SCALAR = re.compile(r"void|ptr|double|i[1-9]\d*")
INTEGER, DOUBLE = re.compile(r"-?\d+"), re.compile(r"0x[0-9A-F]{16}|-?\d+\.\d+e[+-]\d+")
PLACED = frozenset({"inbounds", "nuw", "nusw"})
NAMED = {"true": 1, "false": 0, "null": 0, "poison": 0, "undef": 0, "zeroinitializer": 0}
PAIRS = {"(": ")", "{": "}", "[": "]", "<": ">"}


class Words:
    """The words of a piece of text, which are taken one after another. Constants and functions get their names of C,
    and local values and labels get numbers in the order in which they come."""

    def __init__(self, text: str, names: Mapping[str, str], numbers: dict[str, str]) -> None:
        self.text, self.names, self.numbers = text, names, numbers
        self.left: list[str] = WORD.findall(text)[::-1]

    def refuse(self) -> Refused:
        """That the text is not known."""
        return Refused(f"translate: {' '.join(self.text.split())[:200]}")

    def next(self) -> str:
        """Takes the next word."""
        if not self.left:
            raise self.refuse()
        return self.left.pop()

    def ahead(self) -> str:
        """The next word, which is not taken, or nothing."""
        return self.left[-1] if self.left else ""

    def has(self, *words: str) -> bool:
        """Takes these words, where they come next."""
        there = tuple(self.left[:-len(words) - 1:-1]) == words
        if there:
            del self.left[-len(words):]
        return there

    def expect(self, *words: str) -> None:
        """Takes these words, which have to come next."""
        if not self.has(*words):
            raise self.refuse()

    def end(self) -> None:
        """No word is left."""
        if self.left:
            raise self.refuse()

    def skip(self, words: frozenset[str]) -> list[str]:
        """Takes words of these as long as such come."""
        taken = []
        while self.left and self.left[-1] in words:
            taken.append(self.left.pop())
        return taken

    def skip_pairs(self) -> None:
        """Takes what stands in parentheses, which come next."""
        self.expect("(")
        depth = 1
        while depth:
            word = self.next()
            depth += (word in PAIRS) - (word in PAIRS.values())

    def number(self) -> int:
        """Takes a whole number."""
        word = self.next()
        if not INTEGER.fullmatch(word):
            raise self.refuse()
        return int(word)

    def local(self) -> str:
        """Takes the name of a local value or of a label."""
        word = self.next()
        if word[0] != "%":
            raise self.refuse()
        return self.numbered(word[1:])

    def numbered(self, name: str) -> str:
        """The number of a local name."""
        return self.numbers.setdefault(name.strip('"'), f"v{len(self.numbers)}")

    def global_name(self, word: str) -> str:
        """The name in C of a constant or a function, of the word for it."""
        if word[0] != "@":
            raise self.refuse()
        name = word[1:].strip('"')
        return self.names.get(name, name)

    def label(self) -> str:
        """Takes a label with the word for it."""
        self.expect("label")
        return self.local()

    def type(self) -> str:
        """Takes a type."""
        word = self.next()
        if word == "{":
            kinds = [self.type()]
            while self.has(","):
                kinds.append(self.type())
            self.expect("}")
            if any(kind[0] in "{[" for kind in kinds):
                raise self.refuse()
            return f"{{ {', '.join(kinds)} }}"
        if word in "[<":
            kind = f"{word}{self.number()} {self.next()} {self.type()}{self.next()}"
            if VECTOR.fullmatch(kind) or re.fullmatch(r"\[\d+ x (\w+)\]", kind) and kind[:-1].split()[-1] in SIZES:
                return kind
            raise self.refuse()
        if not SCALAR.fullmatch(word):
            raise self.refuse()
        return word

    def typed(self) -> Value:
        """Takes a value with its type before it."""
        return self.value(self.type())

    def value(self, kind: str) -> Value:
        """Takes a value of a type."""
        word = self.next()
        if word[0] == "%":
            return Value(kind, "local", self.numbered(word[1:]))
        if word[0] == "@":
            return Value(kind, "global", self.global_name(word))
        if word in NAMED:
            return Value(kind, "number", number=NAMED[word])
        if kind == "double" and DOUBLE.fullmatch(word):
            return Value(kind, "double", word)
        if word == "{" and kind[0] == "{":
            return self.parts(kind, "}")
        if word == "<" and kind[0] == "<":
            return self.parts(kind, ">")
        if word == "splat" and kind[0] == "<":
            self.expect("(")
            parts = (self.typed(),) * lanes(kind)[0]
            self.expect(")")
            return Value(kind, "parts", parts=parts)
        if INTEGER.fullmatch(word) and SCALAR.fullmatch(kind) and kind[0] == "i":
            return Value(kind, "number", number=int(word) % 2 ** int(kind[1:]))
        return self.constant(kind, word)

    def parts(self, kind: str, end: str) -> Value:
        """Takes the parts of a struct or a vector and its end."""
        parts = [self.typed()]
        while self.has(","):
            parts.append(self.typed())
        self.expect(end)
        return Value(kind, "parts", parts=tuple(parts))

    def constant(self, kind: str, word: str) -> Value:
        """Takes the rest of a constant expression: a place in a constant, or a place or a number as another type."""
        if word == "sub" and kind == "i64":
            self.expect("(")
            first = self.typed()
            self.expect(",")
            made = Value(kind, "difference", parts=(first, self.typed()))
        elif word == "getelementptr" and kind == "ptr":
            self.skip(PLACED)
            self.expect("(", "i8", ",")
            place = self.typed()
            self.expect(",")
            offset = self.typed().number
            made = place._replace(number=place.number + offset)
        elif word in ("ptrtoint", "ptrtoaddr", "inttoptr"):
            self.expect("(")
            made = self.typed()._replace(type=kind)
            self.expect("to")
            if self.type() != kind:
                raise self.refuse()
        else:
            raise self.refuse()
        self.expect(")")
        if made.code not in ("global", "number", "difference"):
            raise self.refuse()
        return made
