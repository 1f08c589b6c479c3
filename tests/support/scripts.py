"""Loads scripts whose names have no ending, for what they define."""
import functools
import importlib.machinery
import importlib.util
import sys

from .built import TOP


@functools.lru_cache(maxsize=None)
def script(path):
    """A script as a module, by its path from the top of the repository. It must do nothing but define where its
    `__name__` isn't `__main__`."""
    name = f"script_{path.replace('/', '_')}"
    loader = importlib.machinery.SourceFileLoader(name, str(TOP / path))
    made = importlib.util.module_from_spec(importlib.util.spec_from_loader(name, loader))
    sys.modules[name] = made  # where the decorator of a dataclass looks for it
    loader.exec_module(made)
    return made
