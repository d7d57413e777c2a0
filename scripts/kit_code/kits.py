"""The kit that `rt` is of, and its code."""
import importlib.machinery
import importlib.util
import os
import shutil
import sys
from pathlib import Path


def find_kit():
    rt = shutil.which(os.environ.get("RT") or "rt")
    if not rt:
        sys.exit(f"{sys.argv[0]}: rt is not on the PATH, and RT does not name it")
    return Path(rt).resolve().parent.parent


def load_rt(kit):
    """Returns the kit's command `rt` as a module."""
    loader = importlib.machinery.SourceFileLoader("rt_of_the_kit", str(kit / "bin/rt"))
    module = importlib.util.module_from_spec(importlib.util.spec_from_loader("rt_of_the_kit", loader))
    loader.exec_module(module)
    return module
