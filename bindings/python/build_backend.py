"""Builds the package for pip (PEP 517), with nothing but Python, bash and gcc: a wheel of the modules, the
shared library that bindings/python/link makes from the static one, and the licence."""
import base64
import hashlib
import os
import platform
import re
import subprocess
import sys
import tempfile
import zipfile

HERE = os.path.dirname(os.path.abspath(__file__))
TOP = os.path.dirname(os.path.dirname(HERE))
TAG = "py3-none-linux_x86_64"


def _version():
    """The package's version in words, from the number in _raw.py."""
    with open(os.path.join(HERE, "chroma", "_raw.py")) as file:
        number = int(re.search(r"^VERSION = (0x\w+)$", file.read(), flags=re.M).group(1), 16)
    return f"{number >> 16}.{number >> 8 & 255}.{number & 255}"


def _files(version):
    """The wheel's files, but for its list: their names, their bytes and whether they are run."""
    folder = os.path.join(HERE, "chroma")
    for name in sorted(os.listdir(folder)):
        if name.endswith(".py"):
            yield "chroma/" + name, _read(os.path.join(folder, name)), False
    with tempfile.TemporaryDirectory() as temporary:
        library = os.path.join(temporary, "libchroma.so")
        linked = subprocess.run([os.path.join(HERE, "link"), "", library])
        if linked.returncode != 0:
            sys.exit("chroma: bindings/python/link couldn't make the shared library, and says why above")
        yield "chroma/libchroma.so", _read(library), True
    info = f"chroma-{version}.dist-info/"
    for name in ("LICENSE", "NOTICE"):
        yield info + "licenses/" + name, _read(os.path.join(TOP, name)), False
    metadata = (
        f"Metadata-Version: 2.1\nName: chroma\nVersion: {version}\n"
        "Summary: Proved chroma reconstruction and colour conversion, from Y, Cb and Cr planes to RGB\n"
        "License: MIT\nRequires-Python: >=3.8\nDescription-Content-Type: text/markdown\n\n"
    )
    yield info + "METADATA", metadata.encode() + _read(os.path.join(HERE, "README.md")), False
    wheel = f"Wheel-Version: 1.0\nGenerator: bindings/python/build_backend.py\nRoot-Is-Purelib: false\nTag: {TAG}\n"
    yield info + "WHEEL", wheel.encode(), False


def _read(path):
    with open(path, "rb") as file:
        return file.read()


def build_wheel(wheel_directory, config_settings=None, metadata_directory=None):
    if (platform.system(), platform.machine()) != ("Linux", "x86_64"):
        sys.exit("chroma: the library is for Linux on x86-64")
    version = _version()
    name = f"chroma-{version}-{TAG}.whl"
    record = f"chroma-{version}.dist-info/RECORD"
    lines = []
    with zipfile.ZipFile(os.path.join(wheel_directory, name), "w", zipfile.ZIP_DEFLATED) as wheel:
        for path, data, run in _files(version):
            digest = base64.urlsafe_b64encode(hashlib.sha256(data).digest()).rstrip(b"=").decode()
            lines.append(f"{path},sha256={digest},{len(data)}\n")
            _put(wheel, path, data, run)
        _put(wheel, record, "".join(lines + [record + ",,\n"]).encode(), False)
    return name


def _put(wheel, path, data, run):
    """A file of a fixed date, so that a wheel follows from its files alone."""
    info = zipfile.ZipInfo(path, (1980, 1, 1, 0, 0, 0))
    info.external_attr = (0o100755 if run else 0o100644) << 16
    info.compress_type = zipfile.ZIP_DEFLATED
    wheel.writestr(info, data)


def build_sdist(sdist_directory, config_settings=None):
    sys.exit("chroma: a package of sources would lack the proved library; build a wheel")
