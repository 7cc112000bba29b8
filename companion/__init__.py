"""The companion of flame: from a run to a figure. It needs Python 3.9 and its standard library alone.

Nothing that is proved rests on it. The commands are the modules that `commands` names.
"""

import pathlib

VERSION = (pathlib.Path(__file__).resolve().parent.parent / "VERSION").read_text(encoding="utf-8").strip()
