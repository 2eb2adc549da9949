"""Builds the wheel of the module, with the shared library in it, for pip (PEP 517)."""

import base64
import hashlib
import pathlib
import subprocess
import sys
import zipfile

HERE = pathlib.Path(__file__).resolve().parent
ROOT = HERE.parent.parent


def printed(*command):
    return subprocess.run(command, check=True, stdout=subprocess.PIPE, text=True).stdout.strip()


VERSION = printed(ROOT / "bindings/header", "version")
NAME = f"serde_qs-{VERSION}"
BUILT = pathlib.Path(printed(ROOT / "bindings/build"))
# A wheel that runs with every glibc since 2.17, if the library that was built here needs no later one.
IS_OLD = subprocess.run([sys.executable, ROOT / "bindings/elf.py", "manylinux", BUILT / "libserde_qs.so"]).returncode == 0
TAG = f"py3-none-{'manylinux2014' if IS_OLD else 'linux'}_x86_64"

METADATA = f"""\
Metadata-Version: 2.1
Name: serde_qs
Version: {VERSION}
Summary: Nested querystrings, read and written by a proved library
License: MIT OR Apache-2.0
Requires-Python: >=3.9
Description-Content-Type: text/markdown

{(ROOT / "docs/LIBRARY.md").read_text()}"""

WHEEL = f"""\
Wheel-Version: 1.0
Generator: serde_qs
Root-Is-Purelib: false
Tag: {TAG}
"""


def contents():
    """The files of the wheel, by their names in it."""
    info = f"{NAME}.dist-info"
    sources = [*HERE.glob("serde_qs/*.py"), HERE / "serde_qs/py.typed"]
    licences = [ROOT / name for name in ("LICENSE-MIT", "LICENSE-APACHE", "NOTICE")]
    return {
        **{f"serde_qs/{file.name}": file.read_bytes() for file in sources},
        "serde_qs/libserde_qs.so": (BUILT / "libserde_qs.so").read_bytes(),
        **{f"{info}/{file.name}": file.read_bytes() for file in licences},
        f"{info}/METADATA": METADATA.encode(),
        f"{info}/WHEEL": WHEEL.encode(),
    }


def record_line(name, content):
    digest = base64.urlsafe_b64encode(hashlib.sha256(content).digest()).rstrip(b"=").decode()
    return f"{name},sha256={digest},{len(content)}\n"


def build_wheel(wheel_directory, config_settings=None, metadata_directory=None):
    files = contents()
    record = f"{NAME}.dist-info/RECORD"
    lines = "".join(record_line(name, content) for name, content in sorted(files.items()))
    files[record] = f"{lines}{record},,\n".encode()
    wheel = f"{NAME}-{TAG}.whl"
    with zipfile.ZipFile(pathlib.Path(wheel_directory, wheel), "w", zipfile.ZIP_DEFLATED) as archive:
        for name, content in sorted(files.items()):
            entry = zipfile.ZipInfo(name)  # with the same time for every build
            entry.external_attr = 0o100644 << 16
            entry.compress_type = zipfile.ZIP_DEFLATED
            archive.writestr(entry, content)
    return wheel


def build_sdist(sdist_directory, config_settings=None):
    raise NotImplementedError("the shared library is built from the whole repository")
