"""Makes the wheel that pip installs, and the source archive. It wants nothing but Python, so that an installation downloads nothing.

The wheel has the two shared libraries that scripts/build_c made, in out/c or in the folder VULANDRAI_FOLDER, one for every x86-64-v2 and
one for processors with AVX2; the package chooses when it is imported. With VULANDRAI_FOLDER=system it has none, and the package takes the
library that scripts/install installed. The same sources make the same bytes."""
import base64
import gzip
import hashlib
import io
import os
import sysconfig
import tarfile
import zipfile

HERE = os.path.dirname(os.path.abspath(__file__))
LIBRARIES = ("libvulandrai.so.1", "glibc-hwcaps/x86-64-v3/libvulandrai.so.1")
VERSION = "0.2.0"
NAME = f"vulandrai-{VERSION}"
SUMMARY = "Private information retrieval: a proved client and server, over ctypes"
METADATA = f"""Metadata-Version: 2.1
Name: vulandrai
Version: {VERSION}
Summary: {SUMMARY}
License: Apache-2.0
Requires-Python: >=3.8
"""
EARLIEST = (1980, 1, 1, 0, 0, 0)


def get_requires_for_build_wheel(config_settings=None):
    return []


def get_requires_for_build_sdist(config_settings=None):
    return []


def build_wheel(wheel_directory, config_settings=None, metadata_directory=None):
    folder = os.environ.get("VULANDRAI_FOLDER", os.path.join(HERE, os.pardir, "out", "c"))
    contents = package()
    tag = "py3-none-any"
    if folder != "system":
        tag = "py3-none-" + sysconfig.get_platform().replace("-", "_").replace(".", "_")
        contents.update({f"vulandrai/{name}": library(folder, name) for name in LIBRARIES})
    info = f"{NAME}.dist-info"
    contents.update({f"{info}/{name}": data for name, data in license_file().items()})
    contents[f"{info}/METADATA"] = METADATA.encode()
    pure = "true" if folder == "system" else "false"
    contents[f"{info}/WHEEL"] = f"Wheel-Version: 1.0\nGenerator: {__name__}\nRoot-Is-Purelib: {pure}\nTag: {tag}\n".encode()
    record = f"{info}/RECORD"
    lines = [f"{name},sha256={digest(data)},{len(data)}" for name, data in contents.items()] + [f"{record},,"]
    contents[record] = ("\n".join(lines) + "\n").encode()
    wheel = f"{NAME}-{tag}.whl"
    with zipfile.ZipFile(os.path.join(wheel_directory, wheel), "w") as whole:
        for name, data in contents.items():
            member = zipfile.ZipInfo(name, EARLIEST)
            member.compress_type, member.external_attr = zipfile.ZIP_DEFLATED, 0o644 << 16
            whole.writestr(member, data)
    return wheel


def build_sdist(sdist_directory, config_settings=None):
    contents = {f"{NAME}/{name}": data for name, data in package().items()}
    for name in ("pyproject.toml", f"{__name__}.py"):
        contents[f"{NAME}/{name}"] = read(os.path.join(HERE, name))
    contents.update({f"{NAME}/{name}": data for name, data in license_file().items()})
    contents[f"{NAME}/PKG-INFO"] = METADATA.encode()
    archive = f"{NAME}.tar.gz"
    with open(os.path.join(sdist_directory, archive), "wb") as file, gzip.GzipFile("", "wb", 9, file, 0) as zipped:
        with tarfile.open(fileobj=zipped, mode="w", format=tarfile.PAX_FORMAT) as whole:
            for name, data in contents.items():
                member = tarfile.TarInfo(name)
                member.size, member.mode = len(data), 0o644
                whole.addfile(member, io.BytesIO(data))
    return archive


def package():
    """The files of the package, but for the libraries."""
    folder = os.path.join(HERE, "vulandrai")
    names = [name for name in sorted(os.listdir(folder)) if name.endswith((".py", ".typed"))]
    return {f"vulandrai/{name}": read(os.path.join(folder, name)) for name in names}


def license_file():
    """The license: in the source archive it is beside this file, in the repository above it."""
    places = [os.path.join(HERE, "LICENSE"), os.path.join(HERE, os.pardir, "LICENSE")]
    return {"LICENSE": read(place) for place in places[::-1] if os.path.exists(place)}


def library(folder, name):
    path = os.path.join(folder, name)
    if not os.path.exists(path):
        raise SystemExit(f"{name} is not in {folder}: make it by scripts/build_c, or set VULANDRAI_FOLDER to its folder or to 'system'")
    return read(path)


def read(path):
    with open(path, "rb") as file:
        return file.read()


def digest(data):
    return base64.urlsafe_b64encode(hashlib.sha256(data).digest()).rstrip(b"=").decode()
