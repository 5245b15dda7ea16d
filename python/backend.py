"""Builds the wheel and the source archive of gamefile with the standard library only, so that pip needs
no network.

Both hold the package with its shared object, which `make library` puts there and whose version is theirs.
An editable wheel holds the path of the package instead. The same files give the same archives, in which
each file has the time SOURCE_DATE_EPOCH.
"""
import base64
import ctypes
import gzip
import hashlib
import io
import os
import tarfile
import time
import zipfile
from pathlib import Path

NAME = "gamefile"
HERE = Path(__file__).resolve().parent
SHARED_OBJECT = "libgamefile.so.1"
# A wheel is for the machine that it is built on, unless the settings name another platform.
PLATFORM = "linux_x86_64"
# A wheel has no times before 1980.
EPOCH = max(int(os.environ.get("SOURCE_DATE_EPOCH") or 0), 315_532_800)
METADATA = f"""\
Metadata-Version: 2.1
Name: {NAME}
Version: {{}}
Summary: Checks and compares Gambit game files, and writes them as canonical text or as a table
Project-URL: Gambit's file formats, https://gambitproject.readthedocs.io/en/latest/formats.html
Requires-Python: >=3.9
Classifier: Intended Audience :: Science/Research
Classifier: Operating System :: POSIX :: Linux
Classifier: Programming Language :: Python :: 3
Classifier: Topic :: Scientific/Engineering :: Mathematics
Classifier: Typing :: Typed
Description-Content-Type: text/markdown

"""


def shared_object():
    """Gives the path of the shared object."""
    path = HERE / NAME / SHARED_OBJECT
    if not path.exists():
        raise SystemExit(f"{SHARED_OBJECT} is missing: run `make library` first")
    return path


def version():
    """Gives the version, as the library says it."""
    call = ctypes.CDLL(str(shared_object())).gamefile_version
    call.restype = ctypes.c_char_p
    return call().decode()


def metadata():
    """Gives what is said of the package, with its README."""
    return METADATA.format(version()).encode() + (HERE / "README.md").read_bytes()


def package_files():
    """Gives the files of the package, by their names."""
    package = HERE / NAME
    paths = [*sorted(package.glob("*.py")), package / "py.typed", shared_object()]
    return {f"{NAME}/{path.name}": path.read_bytes() for path in paths}


def record_line(name, data):
    """Gives the line of a file in a wheel's list of files."""
    digest = base64.urlsafe_b64encode(hashlib.sha256(data).digest()).rstrip(b"=").decode()
    return f"{name},sha256={digest},{len(data)}\n"


def write_wheel(folder, files, platform=PLATFORM):
    """Writes a wheel that holds these files into a folder, and gives its name."""
    tag, release = f"py3-none-{platform}", f"{NAME}-{version()}"
    info = f"{release}.dist-info"
    wheel = f"Wheel-Version: 1.0\nGenerator: {NAME}\nRoot-Is-Purelib: false\nTag: {tag}\n"
    members = {**files, f"{info}/METADATA": metadata(), f"{info}/WHEEL": wheel.encode()}
    record = "".join(record_line(name, data) for name, data in members.items())
    members[f"{info}/RECORD"] = f"{record}{info}/RECORD,,\n".encode()
    name = f"{release}-{tag}.whl"
    with zipfile.ZipFile(Path(folder, name), "w") as archive:
        for member, data in members.items():
            entry = zipfile.ZipInfo(member, time.gmtime(EPOCH)[:6])
            entry.external_attr = 0o100644 << 16
            archive.writestr(entry, data, zipfile.ZIP_DEFLATED)
    return name


def build_wheel(wheel_directory, config_settings=None, metadata_directory=None):
    """Writes the wheel into a folder, and gives its name. The setting `platform` names its platform."""
    return write_wheel(wheel_directory, package_files(), (config_settings or {}).get("platform", PLATFORM))


def build_editable(wheel_directory, config_settings=None, metadata_directory=None):
    """Writes a wheel that leads to the package here, and gives its name."""
    return write_wheel(wheel_directory, {f"{NAME}.pth": f"{HERE}\n".encode()})


def build_sdist(sdist_directory, config_settings=None):
    """Writes the source archive into a folder, and gives its name. Its shared object is built already."""
    top = f"{NAME}-{version()}"
    own = {name: (HERE / name).read_bytes() for name in ("README.md", "backend.py", "pyproject.toml")}
    path = Path(sdist_directory, f"{top}.tar.gz")
    with gzip.GzipFile(path, "wb", mtime=EPOCH) as packed, tarfile.open(fileobj=packed, mode="w") as archive:
        for name, data in {"PKG-INFO": metadata(), **own, **package_files()}.items():
            member = tarfile.TarInfo(f"{top}/{name}")
            member.size, member.mode, member.mtime = len(data), 0o644, EPOCH
            archive.addfile(member, io.BytesIO(data))
    return path.name
