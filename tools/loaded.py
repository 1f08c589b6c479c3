"""A script as a module of Python, for scripts that need what another defines."""
import importlib.machinery
import importlib.util
import sys


def script(path):
    """What the script at the path defines. It isn't run, where it tests `__name__`, and nothing is left beside it."""
    name = f"script_{path.stem}"
    loader = importlib.machinery.SourceFileLoader(name, str(path))
    made = importlib.util.module_from_spec(importlib.util.spec_from_loader(name, loader))
    # a dataclass looks for its module there
    sys.modules[name] = made
    had, sys.dont_write_bytecode = sys.dont_write_bytecode, True
    try:
        loader.exec_module(made)
    finally:
        sys.dont_write_bytecode = had
    return made
