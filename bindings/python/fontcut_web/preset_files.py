"""The presets of slices that need no font as files, which `fontcut slice` finds by their names: what
`fontcut-web slices` prints of each, after a line that says what it was made from."""
from __future__ import annotations

from typing import Dict

from .presets import unicode_version, web
from .sets import WEB, asked, known, named_codes
from .use import listed

_OF_GOOGLE = "# Subsets of Google Fonts by their names there, as fontcut-web slices prints them."
_OF_UNICODE = ("# Slices by the files of Unicode {}, under the licence in ../NOTICE.txt, as fontcut-web slices prints "
               "them.")


def _text(name: str) -> str:
    wanted = asked([name])
    head = _OF_GOOGLE if name == WEB or name in web() else _OF_UNICODE.format(unicode_version())
    return "".join(f"{line}\n" for line in [head, *listed(named_codes(wanted), wanted)])


def preset_files() -> Dict[str, str]:
    """The text of the file of each preset, by the name of the preset, in the order of the names."""
    return {name: _text(name) for name in sorted([WEB, *known()])}
