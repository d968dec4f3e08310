"""What `pip install .` calls: it makes a wheel of the package `ragymolev` with the shared library in it. A wheel is a zip file with three files about itself,
so that neither setuptools nor any other package is needed, and nothing has to be fetched.

The library is linked from the archive of the checkout (target/staticlib/libragymolev.a) by `cc`; where there is no archive, as in an installed prefix, it is
the one that the package would load. One that does not go with the package is not put into a wheel. The version is that of the file VERSION."""

import base64
import hashlib
import os
import subprocess
import sysconfig
import tempfile
import zipfile

from ragymolev import _find, _library

HERE = os.path.dirname(os.path.abspath(__file__))
ROOT = os.path.dirname(HERE)
ARCHIVE = os.path.join(ROOT, "target", "staticlib", "libragymolev.a")
METADATA = """Metadata-Version: 2.1
Name: ragymolev
Version: %s
Summary: Lists the ladders of a response table; the list is proved complete
Requires-Python: >=3.8
Description-Content-Type: text/markdown

%s"""
WHEEL = """Wheel-Version: 1.0
Generator: ragymolev
Root-Is-Purelib: false
Tag: %s
"""


class UnsupportedOperation(Exception):
    """What this backend does not do."""


def build_sdist(sdist_directory, config_settings=None):
    raise UnsupportedOperation("the package is installed from a checkout or a prefix, and has no source distribution of its own")


def build_wheel(wheel_directory, config_settings=None, metadata_directory=None):
    """Writes the wheel into a folder, and gives its name."""
    name, tag = "ragymolev-" + version(), "py3-none-" + sysconfig.get_platform().replace("-", "_").replace(".", "_")
    about = name + ".dist-info/"
    files = package_files()
    files[about + "METADATA"] = (METADATA % (version(), text_of(os.path.join(HERE, "README.md")))).encode()
    files[about + "WHEEL"] = (WHEEL % tag).encode()
    files[about + "RECORD"] = record_of(files, about + "RECORD")
    wheel = "%s-%s.whl" % (name, tag)
    with zipfile.ZipFile(os.path.join(wheel_directory, wheel), "w", zipfile.ZIP_DEFLATED) as made:
        for path, data in files.items():
            made.writestr(path, data)
    return wheel


def text_of(path):
    with open(path, encoding="utf-8") as file:
        return file.read()


def bytes_of(path):
    with open(path, "rb") as file:
        return file.read()


def version():
    return text_of(os.path.join(ROOT, "VERSION")).strip()


def package_files():
    """The package's own files, and the library beside them."""
    folder = os.path.join(HERE, "ragymolev")
    names = sorted(name for name in os.listdir(folder) if name.endswith(".py") or name == "py.typed")
    files = {"ragymolev/" + name: bytes_of(os.path.join(folder, name)) for name in names}
    library = library_bytes()
    if library is not None:
        files["ragymolev/" + _find.NAME] = library
    return files


def library_bytes():
    """The shared library; none where only the system's loader knows it, which then finds it for the package too."""
    if os.path.isfile(ARCHIVE):
        return linked()
    try:
        path = _find.library_path()
    except ImportError:
        raise SystemExit("ragymolev: there is no library: `tools/library` proves and builds it")
    return checked(path) if os.path.isfile(path) else None


def checked(path):
    """A library that the package can load: an archive may be older than the header."""
    try:
        _library.loaded(path)
    except ImportError as wrong:
        raise SystemExit("ragymolev: %s" % wrong)
    return bytes_of(path)


def linked():
    """The archive as a shared library."""
    with tempfile.TemporaryDirectory() as folder:
        path = os.path.join(folder, _find.NAME)
        whole = ["-Wl,--whole-archive", ARCHIVE, "-Wl,--no-whole-archive"]
        try:
            subprocess.run([os.environ.get("CC", "cc"), "-shared", "-o", path, *whole], check=True)
        except (OSError, subprocess.CalledProcessError) as wrong:
            raise SystemExit("ragymolev: %s cannot be linked into a shared library: %s" % (ARCHIVE, wrong))
        return checked(path)


def record_of(files, itself):
    """The list of the wheel's files, with a checksum of each."""
    lines = []
    for path, data in files.items():
        digest = base64.urlsafe_b64encode(hashlib.sha256(data).digest()).rstrip(b"=").decode()
        lines.append("%s,sha256=%s,%d" % (path, digest, len(data)))
    return "\n".join(lines + [itself + ",,", ""]).encode()
