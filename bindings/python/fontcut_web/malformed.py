"""What fontTools raises where a table is malformed."""
from __future__ import annotations

import struct

from fontTools.ttLib import TTLibError

MALFORMED = (TTLibError, struct.error, ArithmeticError, AssertionError, AttributeError, LookupError,
             NotImplementedError, TypeError, ValueError)
