"""Texts of documents by chance, for tests and measurements of documents that are merged."""
import random
from typing import Container

WORDS = """the of and to in that it was for on are with his they at be this from have or by one had not but what all
    were when we there can an your which their said if do will each about how up out them then she many some so these
    would other into has more her two like him see time could no make than first been its who now people my made over
    did down
    Ængström Łódź façade naïve Ÿ čeština ñandú œuvre ß 1234567890 (quoted) “marks” – 50 % § ©
    ξεσκεπάζω την ψυχοφθόρα βδελυγμία Γαζίες καὶ μυρτιὲς δὲν θὰ βρῶ πιὰ στὸ χρυσαφὶ ξέφωτο
    съешь же ещё этих мягких французских булок да выпей чаю Широкая электрификация южных губерний""".split()
# About as many ideographs as are in common use. Some come more often than others, about as in modern Chinese texts: a
# hundred of them are four in ten characters, five hundred three in four, a thousand nine in ten.
IDEOGRAPHS = [chr(code) for code in range(0x4E00, 0x4E00 + 3500)]
WEIGHTS = [(rank + 100) ** -1.7 for rank in range(len(IDEOGRAPHS))]


def document_lines(name: str, mapped: Container[int], count: int) -> list[list[str]]:
    """The lines of some documents in a font of this name, of characters that it maps: of ideographs for a Chinese font,
    and else of words."""
    chance = random.Random(f"documents of {name}")

    def line() -> str:
        if "WenKai" in name:
            return "".join(chance.choices(IDEOGRAPHS, WEIGHTS, k=20))
        return " ".join(chance.choices(WORDS, k=6))

    return [["".join(letter for letter in line() if ord(letter) in mapped) for _ in range(10)] for _ in range(count)]
