"""Builds the wheel of the package, shared library and version included. pip calls it (PEP 517, and PEP 660 for pip install -e).

The library is the file that HEVRUKAN_LIBRARY names, else target/lib/libhevrukan.so of the repository, which ./hevrukan library
builds if it isn't there or older than its sources.
"""

import base64
import ctypes
import hashlib
import os
import subprocess
import sysconfig
import zipfile

HERE = os.path.dirname(os.path.realpath(__file__))
TOP = os.path.dirname(HERE)
SUMMARY = "An emulated Byteflight controller whose every answer is proved"


class UnsupportedOperation(Exception):
    """What this build doesn't do."""


def build_wheel(wheel_directory, config_settings=None, metadata_directory=None):
    """The package, its library and its version."""
    package = os.path.join(HERE, "hevrukan")
    files = {}
    for name in sorted(os.listdir(package)):
        if name.endswith(".py") or name == "py.typed":
            files[f"hevrukan/{name}"] = _content(os.path.join(package, name))
    files["hevrukan/VERSION"] = f"{_version()}\n".encode()
    # in a folder of its own: beside the modules it would be taken for one
    files["hevrukan/lib/libhevrukan.so"] = _content(_library())
    return _wheel(wheel_directory, files)


def build_editable(wheel_directory, config_settings=None, metadata_directory=None):
    """A path to this folder, whose package finds the repository's library."""
    return _wheel(wheel_directory, {"hevrukan.pth": f"{HERE}\n".encode()})


def build_sdist(sdist_directory, config_settings=None):
    """None: the library is built from the repository's proved crates."""
    raise UnsupportedOperation("hevrukan has no source distribution: install the folder python of its repository")


def _content(path):
    with open(path, "rb") as file:
        return file.read()


def _version():
    path = os.path.join(TOP, "VERSION")
    if not os.path.isfile(path):
        raise SystemExit(f"hevrukan: there is no {path}: install from the repository, with pip 21.3 or later")
    return _content(path).decode("ascii").strip()


def _library():
    path = os.environ.get("HEVRUKAN_LIBRARY")
    if not path:
        if subprocess.run([os.path.join(TOP, "hevrukan"), "library"], stdin=subprocess.DEVNULL).returncode:
            raise SystemExit("hevrukan: ./hevrukan library failed: the shared library could not be built")
        path = os.path.join(TOP, "target", "lib", "libhevrukan.so")
    try:
        ctypes.CDLL(os.path.abspath(path)).hevrukan_size
    except (OSError, AttributeError) as error:
        raise SystemExit(f"hevrukan: {path} is no library of Hevrukan: {error}")
    return path


def _wheel(directory, files):
    """Writes a wheel of these files and gives its name. Equal files make equal wheels."""
    version = _version()
    tag = "py3-none-" + sysconfig.get_platform().replace("-", "_").replace(".", "_")
    info = f"hevrukan-{version}.dist-info"
    name = f"hevrukan-{version}-{tag}.whl"
    files = dict(files)
    metadata = f"Metadata-Version: 2.1\nName: hevrukan\nVersion: {version}\nSummary: {SUMMARY}\nRequires-Python: >=3.8\n"
    files[f"{info}/METADATA"] = metadata.encode()
    files[f"{info}/WHEEL"] = f"Wheel-Version: 1.0\nGenerator: hevrukan\nRoot-Is-Purelib: false\nTag: {tag}\n".encode()
    rows = [f"{path},{_digest(content)},{len(content)}" for path, content in files.items()]
    files[f"{info}/RECORD"] = "\n".join([*rows, f"{info}/RECORD,,", ""]).encode()
    with zipfile.ZipFile(os.path.join(directory, name), "w", zipfile.ZIP_DEFLATED) as wheel:
        for path, content in files.items():
            entry = zipfile.ZipInfo(path)
            entry.external_attr = (0o755 if path.endswith(".so") else 0o644) << 16
            entry.compress_type = zipfile.ZIP_DEFLATED
            wheel.writestr(entry, content)
    return name


def _digest(content):
    return "sha256=" + base64.urlsafe_b64encode(hashlib.sha256(content).digest()).rstrip(b"=").decode()
