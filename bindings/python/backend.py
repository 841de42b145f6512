"""Builds the wheel and the sdist of this folder (PEP 517), with the standard library alone.

The library is that in NUGWIER_LIBRARY, else nugwier/libnugwier.so.0, else libnugwier.so of bindings/c. It has to be
built already. With the same files and the same SOURCE_DATE_EPOCH the bytes are the same.
"""

import base64
import gzip
import hashlib
import io
import os
import re
import tarfile
import time
import zipfile
from pathlib import Path

HERE = Path(__file__).resolve().parent
# The library uses no C library, so it is for each one of Linux; pip wants its oldest name.
TAGS = ["py3-none-manylinux1_x86_64", "py3-none-manylinux_2_5_x86_64"]
LICENSES = ["LICENSE-APACHE", "LICENSE-MIT"]
MODULE = [f"nugwier/{name}" for name in (
    "__init__.py", "_library.py", "constants.py", "faults.py", "file.py", "notes.py", "py.typed", "records.py",
    "sequences.py", "source.py", "values.py", "versions.py")]
LIBRARY = "nugwier/libnugwier.so.0"
CLASSIFIERS = [
    "Operating System :: POSIX :: Linux", "Programming Language :: Python :: 3", "Topic :: Software Development",
    "Typing :: Typed",
]


def field(name):
    """A text of pyproject.toml, which Python reads by itself from 3.11 on only."""
    text = (HERE / "pyproject.toml").read_text(encoding="utf-8")
    return re.search(rf'^{name} = (?:{{ text = )?"([^"]*)"', text, re.M).group(1)


def library():
    named = os.environ.get("NUGWIER_LIBRARY")
    for path in [Path(named)] if named else [HERE / LIBRARY, HERE.parent / "c" / "libnugwier.so"]:
        if path.is_file():
            return path.read_bytes()
    raise SystemExit("no libnugwier.so: NUGWIER_LIBRARY names it")


def date():
    """The time of all files: no earlier than what a zip archive can say."""
    return max(int(os.environ.get("SOURCE_DATE_EPOCH") or time.time()), 315532800)


def metadata():
    lines = [
        "Metadata-Version: 2.1", "Name: nugwier", f"Version: {field('version')}", f"Summary: {field('description')}",
        f"License: {field('license')}", f"Requires-Python: {field('requires-python')}",
        *(f"Classifier: {one}" for one in CLASSIFIERS), *(f"License-File: {name}" for name in LICENSES),
        "Description-Content-Type: text/markdown", "",
    ]
    return ("\n".join(lines) + "\n" + (HERE / "README.md").read_text(encoding="utf-8")).encode()


def stem():
    return f"nugwier-{field('version')}"


def found(name):
    """A file of this folder; in the repository the licences stand at its top."""
    return HERE / name if (HERE / name).exists() else HERE.parent.parent / name


def dist_info():
    """The files of the folder dist-info, but for RECORD."""
    wheel = ["Wheel-Version: 1.0", f"Generator: nugwier {field('version')}", "Root-Is-Purelib: false"]
    files = {name: found(name).read_bytes() for name in LICENSES}
    files["METADATA"] = metadata()
    files["WHEEL"] = ("\n".join(wheel + [f"Tag: {tag}" for tag in TAGS]) + "\n").encode()
    return {f"{stem()}.dist-info/{name}": content for name, content in sorted(files.items())}


def record(files):
    """RECORD: each file with its checksum and its size, and itself without."""
    rows = []
    for name, content in files.items():
        digest = base64.urlsafe_b64encode(hashlib.sha256(content).digest()).rstrip(b"=").decode()
        rows.append(f"{name},sha256={digest},{len(content)}\n")
    return "".join(rows) + f"{stem()}.dist-info/RECORD,,\n"


def put(archive, name, content):
    info = zipfile.ZipInfo(name, time.gmtime(date())[:6])
    info.compress_type = zipfile.ZIP_DEFLATED
    info.create_system = 3
    info.external_attr = (0o100755 if name == LIBRARY else 0o100644) << 16
    archive.writestr(info, content)


def build_wheel(wheel_directory, config_settings=None, metadata_directory=None):
    files = {name: (HERE / name).read_bytes() for name in MODULE}
    files[LIBRARY] = library()
    files = dict(sorted(files.items()))
    files.update(dist_info())
    platforms = ".".join(tag.rsplit("-", 1)[1] for tag in TAGS)
    name = f"{stem()}-py3-none-{platforms}.whl"
    with zipfile.ZipFile(Path(wheel_directory) / name, "w") as archive:
        for path, content in files.items():
            put(archive, path, content)
        put(archive, f"{stem()}.dist-info/RECORD", record(files).encode())
    return name


def build_sdist(sdist_directory, config_settings=None):
    names = [*MODULE, *LICENSES, "README.md", "backend.py", "pyproject.toml", "test_nugwier.py"]
    files = {name: found(name).read_bytes() for name in names}
    files[LIBRARY] = library()
    files["PKG-INFO"] = metadata()
    name = f"{stem()}.tar.gz"
    with open(Path(sdist_directory) / name, "wb") as out, gzip.GzipFile("", "wb", 9, out, 0) as packed, \
            tarfile.open(fileobj=packed, mode="w", format=tarfile.USTAR_FORMAT) as archive:
        for path, content in sorted(files.items()):
            info = tarfile.TarInfo(f"{stem()}/{path}")
            info.size = len(content)
            info.mtime = date()
            info.mode = 0o755 if path == LIBRARY else 0o644
            archive.addfile(info, io.BytesIO(content))
    return name


def get_requires_for_build_wheel(config_settings=None):
    return []


def get_requires_for_build_sdist(config_settings=None):
    return []
