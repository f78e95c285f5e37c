"""Builds the wheel of this package with the standard library alone, so that an installation needs no network.

`pyproject.toml` names this module as its build backend. A wheel is a zip file with the package, some files that describe it, and the sum of
each file (the binary distribution format of PyPA); the same sources give the same bytes. An editable one has a path in place of the package.
"""

import base64
import gzip
import hashlib
import io
import os
import re
import tarfile
import zipfile

HERE = os.path.dirname(os.path.abspath(__file__))
LONG_AGO = (1980, 1, 1, 0, 0, 0)  # the first time that a zip file can have


def _read(*names):
    with open(os.path.join(HERE, *names), "rb") as file:
        return file.read()


NAME = "retro_client"
VERSION = re.search(r'^__version__ = "(.*)"$', _read("retro", "__init__.py").decode(), flags=re.M).group(1)
INFO = "%s-%s.dist-info" % (NAME, VERSION)
METADATA = """Metadata-Version: 2.1
Name: retro-client
Version: %s
Summary: A client of the program retro, which corrects the past of histories
Requires-Python: >=3.9
Description-Content-Type: text/markdown

%s""" % (VERSION, _read("README.md").decode())
WHEEL = "Wheel-Version: 1.0\nGenerator: building\nRoot-Is-Purelib: true\nTag: py3-none-any\n"
ENTRY_POINTS = "[console_scripts]\nretro-client = retro.__main__:main\n"


def sources():
    """The files of the package, by their names in an archive."""
    names = sorted(os.listdir(os.path.join(HERE, "retro")))
    return {"retro/" + name: _read("retro", name) for name in names if name.endswith((".py", ".typed", ".js", ".css", ".html"))}


def _wheel(folder, files):
    """Writes a wheel of these files, and gives its name."""
    files = dict(files)
    for name, text in (("METADATA", METADATA), ("WHEEL", WHEEL), ("entry_points.txt", ENTRY_POINTS)):
        files["%s/%s" % (INFO, name)] = text.encode()
    record = ""
    for name, body in files.items():
        digest = base64.urlsafe_b64encode(hashlib.sha256(body).digest()).rstrip(b"=").decode()
        record += "%s,sha256=%s,%d\n" % (name, digest, len(body))
    files[INFO + "/RECORD"] = (record + INFO + "/RECORD,,\n").encode()
    wheel = "%s-%s-py3-none-any.whl" % (NAME, VERSION)
    with zipfile.ZipFile(os.path.join(folder, wheel), "w") as archive:
        for name, body in files.items():
            entry = zipfile.ZipInfo(name, LONG_AGO)
            entry.compress_type, entry.external_attr, entry.create_system = zipfile.ZIP_DEFLATED, 0o644 << 16, 3
            archive.writestr(entry, body)
    return wheel


def build_wheel(wheel_directory, config_settings=None, metadata_directory=None):
    """Writes the wheel, and gives its name."""
    return _wheel(wheel_directory, sources())


def build_editable(wheel_directory, config_settings=None, metadata_directory=None):
    """Writes a wheel that leads to this folder, for `pip install -e`, and gives its name."""
    return _wheel(wheel_directory, {NAME + ".pth": (HERE + "\n").encode()})


def build_sdist(sdist_directory, config_settings=None):
    """Writes an archive of the sources, and gives its name."""
    top = "%s-%s" % (NAME, VERSION)
    files = {name: _read(name) for name in ("pyproject.toml", "README.md", "building.py")}
    files.update(sources())
    files["PKG-INFO"] = METADATA.encode()
    with gzip.GzipFile(os.path.join(sdist_directory, top + ".tar.gz"), "wb", mtime=0) as packed:
        with tarfile.open(fileobj=packed, mode="w") as archive:
            for name, body in files.items():
                entry = tarfile.TarInfo(top + "/" + name)
                entry.size = len(body)
                archive.addfile(entry, io.BytesIO(body))
    return top + ".tar.gz"
