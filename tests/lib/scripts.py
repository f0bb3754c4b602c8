"""A script of this repository as a module, for what it shares with another one."""
import importlib.machinery
import os
import types

TOP = os.path.dirname(os.path.dirname(os.path.dirname(os.path.abspath(__file__))))


def script(path):
    """The script at a path from the top, as `tests/states`."""
    name = os.path.basename(path).replace("-", "_")
    module = types.ModuleType(name)
    module.__file__ = f"{TOP}/{path}"
    importlib.machinery.SourceFileLoader(name, module.__file__).exec_module(module)
    return module
