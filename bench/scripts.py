"""What the scripts of this folder share: the tool's package, and each script as a module, so that others use what it makes."""

import os
import sys
from importlib.machinery import SourceFileLoader
from importlib.util import module_from_spec, spec_from_file_location, spec_from_loader

HERE = os.path.dirname(os.path.realpath(__file__))
TOP = os.path.dirname(HERE)


def package(name, folder):
    """Makes a package of another folder known by its name."""
    spec = spec_from_file_location(name, f"{folder}/__init__.py", submodule_search_locations=[folder])
    sys.modules[name] = module_from_spec(spec)
    spec.loader.exec_module(sys.modules[name])


package("tool", f"{TOP}/bin/tool")

from tool.ends import ended, say


def script(name):
    """Returns the script of this name as a module."""
    spec = spec_from_loader(name, SourceFileLoader(name, f"{HERE}/{name}"))
    module = module_from_spec(spec)
    spec.loader.exec_module(module)
    return module


__all__ = ["HERE", "TOP", "ended", "say", "script"]
