"""The pages of a site are drawn by cuts and by whole fonts. A run that ends because some differ keeps which did not."""
from __future__ import annotations

import contextlib
import json
import os
import shutil
from typing import List, NamedTuple, Sequence, Set

from . import drawn
from .site_state import Place, bytes_at, put_text

# Which pages were drawn alike when others differed, and the folder of the pictures of these.
_DRAWN, _PICTURES = "drawn.json", "pictures"


class Asked(NamedTuple):
    """A page of this name that is to be drawn: in which fonts, and a digest of what its pictures depend on."""

    name: str
    compared: List[drawn.Compared]
    digest: str


def _known(place: Place) -> Set[str]:
    """The digests of pages that a run has drawn which ended because others differed."""
    with contextlib.suppress(ValueError, TypeError):
        return set(json.loads(bytes_at(place.work, _DRAWN) or b"[]"))
    return set()


def check(place: Place, asked: Sequence[Asked], accepts: str) -> int:
    """Draws the pages that were not drawn yet, and returns how many these are. Raises `Differs` with all that are drawn
    otherwise by their cuts, and with what lets them be."""
    known, pictures = _known(place), os.path.join(place.work, _PICTURES)
    new = [one for one in asked if one.digest not in known]
    # Those of the run before are of no use any more.
    shutil.rmtree(pictures, ignore_errors=True)
    os.makedirs(pictures, exist_ok=True)
    said = iter(drawn.differences([each for one in new for each in one.compared], pictures))
    found = [[f"{one.name}: {line}" for line in (next(said) for _ in one.compared) if line] for one in new]
    lines = [line for some in found for line in some]
    if lines:
        passed = known.union(one.digest for one, some in zip(new, found) if not some)
        put_text(place.work, _DRAWN, json.dumps(sorted(passed)))
        count = sum(map(bool, found))
        raise drawn.Differs([*lines, f"{count} of {len(asked)} pages differ, and nothing is written: {accepts}"])
    os.rmdir(pictures)
    with contextlib.suppress(FileNotFoundError):
        os.unlink(os.path.join(place.work, _DRAWN))
    return len(new)
