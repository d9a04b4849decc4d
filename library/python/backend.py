"""Makes the shared library of the static one, and the package for pip with it inside (PEP 517, PEP 660).

Python and cc are all that it needs, so that pip needs no network. The static library is taken from the folder that the
environment variable SILJUVATT_LIB names, or else from crates/siljuvatt/out of the repository. pip may have copied this
folder alone to elsewhere: the first one then.

usage: python3 backend.py [ARCHIVE [SHARED]]   (as library/make-shared)
"""

import base64
import hashlib
import os
import re
import subprocess
import sys
import tempfile
import zipfile
from pathlib import Path

HERE = Path(__file__).resolve().parent
STATICLIB = HERE.parent.parent / "crates/siljuvatt/out"
ARCHIVE = "libsiljuvatt.a"
TAG = "py3-none-linux_x86_64"


class UnsupportedOperation(Exception):
    """What PEP 517 has a backend raise for what it does not make."""


def make_shared(archive, shared):
    """Makes the shared library of the static one, or ends with a line that says why not."""
    if not archive.is_file():
        sys.exit(f"{archive} is not there; build it by: compare/build siljuvatt "
                 "(for pip, the environment variable SILJUVATT_LIB names another folder)")
    whole = ["-Wl,--whole-archive", archive, "-Wl,--no-whole-archive"]
    try:
        subprocess.run(["cc", "-shared", *whole, "-Wl,-z,defs", f"-Wl,-soname,{shared.name}", "-o", shared], check=True)
    except FileNotFoundError:
        sys.exit("cc is not there; on Debian it comes by: apt install gcc")
    except subprocess.CalledProcessError:
        sys.exit(f"cc makes no shared library of {archive}")


def shared_library():
    """The bytes of the shared library. Nothing is written to the tree."""
    archive = Path(os.environ.get("SILJUVATT_LIB") or STATICLIB) / ARCHIVE
    with tempfile.TemporaryDirectory() as folder:
        shared = Path(folder) / "libsiljuvatt.so"
        make_shared(archive, shared)
        return shared.read_bytes()


def recorded(path, data):
    """A file's line in RECORD."""
    digest = base64.urlsafe_b64encode(hashlib.sha256(data).digest()).rstrip(b"=").decode()
    return f"{path},sha256={digest},{len(data)}\n"


def write_wheel(folder, files):
    """Writes a wheel of these files and of what describes it, and returns its name."""
    from siljuvatt import __version__ as version
    said = dict(re.findall(r'^([a-z-]+) = "(.*)"$', (HERE / "pyproject.toml").read_text(), re.M))
    about = f"{said['name']}-{version}.dist-info"
    files[f"{about}/METADATA"] = (
        f"Metadata-Version: 2.1\nName: {said['name']}\nVersion: {version}\nSummary: {said['description']}\n"
        f"Requires-Python: {said['requires-python']}\n").encode()
    files[f"{about}/WHEEL"] = f"Wheel-Version: 1.0\nGenerator: backend\nRoot-Is-Purelib: false\nTag: {TAG}\n".encode()
    lines = [recorded(path, data) for path, data in files.items()]
    files[f"{about}/RECORD"] = ("".join(lines) + f"{about}/RECORD,,\n").encode()
    name = f"{said['name']}-{version}-{TAG}.whl"
    with zipfile.ZipFile(Path(folder) / name, "w") as wheel:
        for path, data in files.items():
            entry = zipfile.ZipInfo(path)  # with no time of its own: the same files are the same wheel
            entry.external_attr = 0o644 << 16
            wheel.writestr(entry, data, zipfile.ZIP_DEFLATED)
    return name


def build_wheel(wheel_directory, config_settings=None, metadata_directory=None):
    """The package and its shared library."""
    files = {f"siljuvatt/{name}": (HERE / "siljuvatt" / name).read_bytes() for name in ("__init__.py", "py.typed")}
    return write_wheel(wheel_directory, {**files, "siljuvatt/libsiljuvatt.so": shared_library()})


def build_editable(wheel_directory, config_settings=None, metadata_directory=None):
    """The way to this folder. The shared library is found as it is in the tree."""
    return write_wheel(wheel_directory, {"siljuvatt.pth": f"{HERE}\n".encode()})


def build_sdist(sdist_directory, config_settings=None):
    """The library's sources are not here, and not in Python."""
    raise UnsupportedOperation("there is no source package; a wheel can be carried: pip wheel library/python")


def main(arguments):
    if len(arguments) > 2:
        print("usage: library/make-shared [ARCHIVE [SHARED]]", file=sys.stderr)
        sys.exit(2)
    archive = Path(arguments[0]) if arguments else STATICLIB / ARCHIVE
    make_shared(archive, Path(arguments[1]) if arguments[1:] else archive.with_suffix(".so"))


if __name__ == "__main__":
    main(sys.argv[1:])
