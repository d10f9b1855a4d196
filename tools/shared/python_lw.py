"""The library's module for Python, python/lw.py, which is no part of tools/."""
from __future__ import annotations

import importlib.util
import os
import sys
from types import ModuleType

from shared.home import HOME

FOLDER = os.path.join(HOME, "python")


def load_lw() -> ModuleType:
    """Returns the module `lw`. It is loaded from its file, unless something has imported it already, as a wheel has."""
    if "lw" not in sys.modules:
        spec = importlib.util.spec_from_file_location("lw", os.path.join(FOLDER, "lw.py"))
        assert spec and spec.loader
        module = importlib.util.module_from_spec(spec)
        spec.loader.exec_module(module)
        sys.modules["lw"] = module
    return sys.modules["lw"]
