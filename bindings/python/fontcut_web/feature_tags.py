"""The features that OpenType registers (OpenType 1.9, Registered features), by which a tag is seen to be misspelt."""
from __future__ import annotations

import difflib
from typing import Dict, Iterable, List

from .common import UsageError

REGISTERED = frozenset([*"""
    aalt abvf abvm abvs afrc akhn apkn blwf blwm blws c2pc c2sc calt case ccmp cfar chws cjct clig cpct cpsp cswh
    curs dist dlig dnom dtls expt falt fin2 fin3 fina flac frac fwid half haln halt hist hkna hlig hngl hojo hwid
    init isol ital jalt jp04 jp78 jp83 jp90 kern lfbd liga ljmo lnum locl ltra ltrm mark med2 medi mgrk mkmk mset
    nalt nlck nukt numr onum opbd ordn ornm palt pcap pkna pnum pref pres pstf psts pwid qwid rand rclt rkrf rlig
    rphf rtbd rtla rtlm ruby rvrn salt sinf size smcp smpl ssty stch subs sups swsh titl tjmo tnam tnum trad twid
    unic valt vapk vatu vchw vert vhal vjmo vkna vkrn vpal vrt2 vrtr zero""".split(),
    *(f"ss{number:02}" for number in range(1, 21)),
    *(f"cv{number:02}" for number in range(1, 100))])
# How near a misspelt tag is: two letters that have changed places, or one that is another.
_NEAR = 0.7


def misspelt(lacking: Iterable[str]) -> Dict[str, str]:
    """Those tags, of which a font has no feature, that no feature has, each with the registered one that it is near to.
    """
    found: Dict[str, List[str]] = {tag: sorted(difflib.get_close_matches(tag, REGISTERED, 3, _NEAR), key=lambda near: (
        sorted(near) != sorted(tag), -difflib.SequenceMatcher(None, tag, near).ratio(), near))
        for tag in lacking if tag not in REGISTERED}
    return {tag: near[0] for tag, near in found.items() if near}


def check_spelling(path: str, lacking: Iterable[str]) -> None:
    """Raises `UsageError` for a misspelt one of the tags of which the font in a file has no feature."""
    for tag, near in misspelt(lacking).items():
        raise UsageError(f"{path} has no feature {tag}: did you mean {near}?")
