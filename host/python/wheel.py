"""Builds the wheel that `pip install host/python` asks for (PEP 517): bib.py, and in the folder `knurravoe` the library for this machine out
of lib/ as libbib.so, and libbibcheck.so. It needs a C compiler and cargo, and nothing from elsewhere.
"""

import base64
import hashlib
import os
import pathlib
import platform
import re
import shutil
import subprocess
import tempfile
import zipfile

HERE = pathlib.Path(__file__).resolve().parent
NAME = "knurravoe"


def _version():
    return re.search(r'^version = "(.*)"$', (HERE / "pyproject.toml").read_text(), re.M)[1]


def _archive():
    root, folder = HERE.parents[1], os.environ.get("KNURRAVOE_LIB")
    if not folder and subprocess.run([root / "host/sources", "--kept"]).returncode != 0:
        raise SystemExit("the sources of the library are not those that lib/ was made of: ./bib prove proves them and makes it anew")
    archive = pathlib.Path(folder or root / "lib" / platform.machine()) / "libbib.a"
    if not archive.is_file():
        raise SystemExit(f"there is no {archive}: the library is in lib/ for x86-64 and Arm, or KNURRAVOE_LIB names its folder")
    return archive


def _run(words, **more):
    if shutil.which(words[0]) is None:
        raise SystemExit(f"{words[0]} is not on the PATH: the libraries are built by cargo and a C compiler")
    subprocess.run(words, check=True, **more)


def _shared_object():
    with tempfile.TemporaryDirectory() as folder:
        made = pathlib.Path(folder) / "libbib.so"
        words = ["-shared", "-Wl,-soname,libbib.so", "-Wl,--whole-archive", str(_archive()), "-Wl,--no-whole-archive", "-o", str(made)]
        _run([os.environ.get("CC", "cc"), *words])
        return made.read_bytes()


def _findings():
    host = HERE.parent
    _run(["cargo", "build", "--release", "--quiet", "-p", "bibcheck"], cwd=host)
    return (pathlib.Path(os.environ.get("CARGO_TARGET_DIR", host / "target")) / "release/libbibcheck.so").read_bytes()


def _row(name, content):
    digest = base64.urlsafe_b64encode(hashlib.sha256(content).digest()).rstrip(b"=").decode()
    return f"{name},sha256={digest},{len(content)}\n"


def build_wheel(wheel_directory, config_settings=None, metadata_directory=None):
    version = _version()
    tag = f"py3-none-linux_{platform.machine()}"
    info = f"{NAME}-{version}.dist-info"
    summary = "A proved bibliography reader: rows, resolved fields and refusals of .bib files"
    files = {
        "bib.py": (HERE / "bib.py").read_bytes(),
        f"{NAME}/libbib.so": _shared_object(),
        f"{NAME}/libbibcheck.so": _findings(),
        f"{info}/METADATA": f"Metadata-Version: 2.1\nName: {NAME}\nVersion: {version}\nSummary: {summary}\nLicense: MIT OR Apache-2.0\n".encode(),
        f"{info}/WHEEL": f"Wheel-Version: 1.0\nGenerator: {NAME}\nRoot-Is-Purelib: false\nTag: {tag}\n".encode(),
    }
    files.update({f"{info}/{name}": (HERE.parents[1] / name).read_bytes() for name in ("NOTICE", "LICENSE-MIT", "LICENSE-APACHE")})
    record = "".join(_row(name, content) for name, content in files.items())
    files[f"{info}/RECORD"] = f"{record}{info}/RECORD,,\n".encode()
    wheel = f"{NAME}-{version}-{tag}.whl"
    with zipfile.ZipFile(pathlib.Path(wheel_directory) / wheel, "w", zipfile.ZIP_DEFLATED) as archive:
        for name, content in files.items():
            archive.writestr(name, content)
    return wheel


def build_sdist(sdist_directory, config_settings=None):
    raise SystemExit("there is no source package: the library is in lib/ of the repository; pip install host/python makes a wheel")
