"""Builds the wheel of the package for pip, without setuptools, so without a network (PEP 517, PEP 660).

The wheel contains the programs of a folder that STATION_PROGRAMS names (`lbserver`, the page, the shared object); without it
the page, and the shared object if `make -C bindings` has made it. With a program it is for x86-64 Linux alone. There is no source
distribution, since programs are made elsewhere in the repository. The same files make the same bytes, at the time SOURCE_DATE_EPOCH.
"""

import base64
import hashlib
import os
import pathlib
import time
import tomllib
import zipfile

HERE = pathlib.Path(__file__).resolve().parent
PACKAGE = "station"
LIBRARY = HERE.parent / "out/libstation.so"
PAGE = HERE.parents[1] / "pages/throttle.html"
# The programs need glibc 2.34 and nothing else.
PLATFORM = "manylinux_2_34_x86_64"
# The earliest time that a zip archive can hold.
FIRST_TIME = 315_532_800


def build_wheel(wheel_directory, config_settings=None, metadata_directory=None):
    """Writes the wheel into the folder. Returns its name."""
    files = {f"{PACKAGE}/{path.name}": path.read_bytes() for path in sorted((HERE / PACKAGE).glob("*.py"))}
    files[f"{PACKAGE}/py.typed"] = b""
    folder = os.environ.get("STATION_PROGRAMS")
    programs = sorted(pathlib.Path(folder).iterdir()) if folder else [path for path in (LIBRARY, PAGE) if path.is_file()]
    files |= {f"{PACKAGE}/programs/{path.name}": path.read_bytes() for path in programs}
    platform = PLATFORM if folder else "linux_x86_64" if LIBRARY in programs else "any"
    return _write(wheel_directory, files, platform)


def build_editable(wheel_directory, config_settings=None, metadata_directory=None):
    """The same for `pip install -e`: the package is used where it is."""
    return _write(wheel_directory, {f"{PACKAGE}.pth": f"{HERE}\n".encode()}, "any")


def _write(folder, files, platform):
    project = tomllib.loads((HERE / "pyproject.toml").read_text())["project"]
    info = f"{project['name']}-{project['version']}.dist-info"
    metadata = f"Metadata-Version: 2.1\nName: {project['name']}\nVersion: {project['version']}\n"
    metadata += f"Summary: {project['description']}\nRequires-Python: {project['requires-python']}\n"
    pure = str(platform == "any").lower()
    tags = f"Wheel-Version: 1.0\nGenerator: wheel_backend\nRoot-Is-Purelib: {pure}\nTag: py3-none-{platform}\n"
    entries = "".join(
        f"[{group}]\n" + "".join(f"{name} = {module}\n" for name, module in names.items())
        for group, names in project["entry-points"].items()
    )
    files = {**files, f"{info}/METADATA": metadata.encode(), f"{info}/WHEEL": tags.encode()}
    files[f"{info}/entry_points.txt"] = entries.encode()
    record = [f"{name},sha256={_digest(data)},{len(data)}" for name, data in files.items()]
    files[f"{info}/RECORD"] = "\n".join([*record, f"{info}/RECORD,,", ""]).encode()
    name = f"{project['name']}-{project['version']}-py3-none-{platform}.whl"
    when = time.gmtime(max(int(os.environ.get("SOURCE_DATE_EPOCH", FIRST_TIME)), FIRST_TIME))[:6]
    with zipfile.ZipFile(pathlib.Path(folder, name), "w", zipfile.ZIP_DEFLATED) as wheel:
        for path, data in files.items():
            entry = zipfile.ZipInfo(path, when)
            # A program is executable, everything else is not.
            entry.external_attr = (0o100755 if data.startswith(b"\x7fELF") else 0o100644) << 16
            wheel.writestr(entry, data, zipfile.ZIP_DEFLATED)
    return name


def _digest(data):
    return base64.urlsafe_b64encode(hashlib.sha256(data).digest()).rstrip(b"=").decode()
