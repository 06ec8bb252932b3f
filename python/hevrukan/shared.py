"""The shared library: which file it is, and its functions with their types, as include/hevrukan.h has them."""

from __future__ import annotations

import ctypes
import functools
import os

_HERE = os.path.dirname(os.path.realpath(__file__))
_TOP = os.path.dirname(os.path.dirname(_HERE))
_NAME = "libhevrukan.so"


@functools.lru_cache(maxsize=None)
def version() -> str:
    """The version: of the installed package, or that of the repository where it isn't installed."""
    for place in (_HERE, _TOP):
        path = os.path.join(place, "VERSION")
        if os.path.isfile(path):
            with open(path, encoding="ascii") as file:
                return file.read().strip()
    raise OSError(f"there is no file VERSION in {_HERE} or {_TOP}")


def library_path() -> str:
    """The file that HEVRUKAN_LIBRARY names, else the installed package's own, else the one that ./hevrukan library builds."""
    named = os.environ.get("HEVRUKAN_LIBRARY")
    installed = os.path.join(_HERE, "lib", _NAME)
    return named or (installed if os.path.isfile(installed) else os.path.join(_TOP, "target", "lib", _NAME))


@functools.lru_cache(maxsize=None)
def library() -> ctypes.PyDLL:
    """The library, loaded once: the functions of hevrukan.h, with their types."""
    path = library_path()
    if not os.path.isfile(path):
        raise OSError(f"there is no library {path}: ./hevrukan library builds it; HEVRUKAN_LIBRARY may name another file")
    # PyDLL keeps the interpreter's lock during a call, so that no two threads are in a record at once
    loaded = ctypes.PyDLL(os.path.abspath(path))
    size, number, pointer = ctypes.c_size_t, ctypes.c_uint32, ctypes.c_void_p
    shown = [pointer, size, number, pointer, size]
    try:
        for name, restype, argtypes in (
            ("size", size, []),
            ("version", number, []),
            ("reset", number, [pointer, size]),
            ("step", number, [pointer, size, number, number, number, ctypes.c_char_p, size, pointer, size]),
            ("lines", number, [pointer, size]),
            ("buffer", number, shown),
            ("waiting", number, shown),
        ):
            function = getattr(loaded, f"hevrukan_{name}")
            function.restype, function.argtypes = restype, argtypes
    except AttributeError as error:
        raise OSError(f"{path} is no library of Hevrukan {version()}: {error}")
    found = loaded.hevrukan_version()
    if f"{found // 10000}.{found // 100 % 100}.{found % 100}" != version():
        raise OSError(f"{path} is of version number {found}, the package of version {version()}: they don't belong together")
    return loaded
