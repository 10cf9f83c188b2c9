"""Builds the package with the C compiler alone: for pip, and as backend.py FOLDER into a folder.

RLP_PREFIX names the folder with include/rlp.h and lib/librlp.a, if it isn't the one that bindings/build fills.
"""

import base64
import hashlib
import os
import pathlib
import shutil
import subprocess
import sys
import sysconfig
import zipfile

HERE = pathlib.Path(__file__).resolve().parent
NAME, VERSION = "rlp_proved", "0.6.1"
TAG = "cp311-abi3-" + sysconfig.get_platform().replace("-", "_").replace(".", "_")
METADATA = f"""Metadata-Version: 2.1
Name: {NAME}
Version: {VERSION}
Summary: The Recursive Length Prefix format of Ethereum, over a library that is proved
License: MIT OR Apache-2.0
Requires-Python: >=3.11
"""


def compile_into(folder):
    """Puts the package into a folder, with the extension."""
    prefix = pathlib.Path(os.environ.get("RLP_PREFIX") or HERE.parent.parent / "out" / "bindings")
    archive = prefix / "lib" / "librlp.a"
    if not archive.exists():
        sys.exit(f"{archive} is missing: run bindings/build, or set RLP_PREFIX")
    package = pathlib.Path(folder) / NAME
    shutil.copytree(HERE / "package" / NAME, package, dirs_exist_ok=True, ignore=shutil.ignore_patterns("__pycache__"))
    includes = [f"-I{prefix / 'include'}", f"-I{sysconfig.get_paths()['include']}"]
    flags = ["-O2", "-Wall", "-Wextra", "-fPIC", "-shared", "-fvisibility=hidden"]
    sources = sorted(str(source) for source in (HERE / "src").glob("*.c"))
    compiler = os.environ.get("CC", "cc").split()
    subprocess.run([*compiler, *flags, *includes, *sources, str(archive), "-o", str(package / "_core.abi3.so")], check=True)
    return package


def record(name, data):
    """The line of a file in RECORD."""
    digest = base64.urlsafe_b64encode(hashlib.sha256(data).digest()).rstrip(b"=").decode()
    return f"{name},sha256={digest},{len(data)}\n"


def build_wheel(wheel_directory, config_settings=None, metadata_directory=None):
    """Builds a wheel, as pip asks for it."""
    wheel = f"{NAME}-{VERSION}-{TAG}.whl"
    build = pathlib.Path(wheel_directory) / "build"
    package, info = compile_into(build), f"{NAME}-{VERSION}.dist-info"
    files = {f"{NAME}/{file.name}": file.read_bytes() for file in sorted(package.iterdir()) if file.is_file()}
    shutil.rmtree(build)
    files[f"{info}/METADATA"] = METADATA.encode()
    files[f"{info}/WHEEL"] = f"Wheel-Version: 1.0\nGenerator: {NAME}\nRoot-Is-Purelib: false\nTag: {TAG}\n".encode()
    lines = "".join(record(name, data) for name, data in files.items()) + f"{info}/RECORD,,\n"
    files[f"{info}/RECORD"] = lines.encode()
    with zipfile.ZipFile(pathlib.Path(wheel_directory) / wheel, "w", zipfile.ZIP_DEFLATED) as out:
        for name, data in files.items():
            out.writestr(name, data)
    return wheel


if __name__ == "__main__":
    compile_into(sys.argv[1])
