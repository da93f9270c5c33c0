"""Builds the wheel of the package, as PEP 517 and PEP 660 say, with Python's own library alone.

`build` beside this file links the shared library with the archive that `bindings/archive` or `tools/install` makes. A
wheel has the modules, the shared library, VERSION, LICENSE and NOTICE. An editable wheel has the path of this folder,
and the library is linked into nalgebra_sparse/. Where a step is missing, the build ends with one message.
"""
import base64
import hashlib
import os
import subprocess
import sys
import sysconfig
import tempfile
import zipfile

HERE = os.path.dirname(os.path.abspath(__file__))
TOP = os.path.dirname(os.path.dirname(HERE))
NAME = "nalgebra_sparse"
METADATA = """\
Metadata-Version: 2.1
Name: {name}
Version: {version}
Summary: Exact sparse matrices, by a proved static library
Author: Virdsjak maintainers
License: Apache-2.0
License-File: LICENSE
License-File: NOTICE
Keywords: sparse,matrix,exact,csr,csc
Classifier: License :: OSI Approved :: Apache Software License
Classifier: Operating System :: POSIX :: Linux
Classifier: Programming Language :: Python :: 3
Classifier: Topic :: Scientific/Engineering :: Mathematics
Classifier: Typing :: Typed
Requires-Python: >=3.8
Requires-Dist: numpy>=1.21
Requires-Dist: scipy>=1.8
Description-Content-Type: text/markdown

{readme}"""


def _text(*path):
    with open(os.path.join(*path), encoding="utf-8") as file:
        return file.read()


def _bytes(*path):
    with open(os.path.join(*path), "rb") as file:
        return file.read()


def _version():
    if not os.path.exists(os.path.join(TOP, "VERSION")):
        sys.exit(f"{NAME} is built inside a clone of its repository: run pip install ./bindings/python at its top")
    return _text(TOP, "VERSION").strip()


def _tag():
    """Any Python 3 of this platform: the library is loaded with ctypes."""
    return "py3-none-" + sysconfig.get_platform().replace("-", "_").replace(".", "_")


def _described():
    """Returns the files that describe the package, by their names in the folder of its metadata."""
    metadata = METADATA.format(name=NAME, version=_version(), readme=_text(HERE, "README.md"))
    wheel = f"Wheel-Version: 1.0\nGenerator: {NAME}\nRoot-Is-Purelib: false\nTag: {_tag()}\n"
    files = {"METADATA": metadata.encode(), "WHEEL": wheel.encode()}
    files.update({f"licenses/{name}": _bytes(TOP, name) for name in ("LICENSE", "NOTICE")})
    return files


def _linked(path):
    """Links the shared library to a path."""
    ran = subprocess.run([os.path.join(HERE, "build"), path], stderr=subprocess.PIPE, text=True, check=False)
    if ran.returncode:
        sys.exit(f"{ran.stderr.strip()}\nthe shared library of {NAME} was not linked; the lines above say which step is missing")


def _wheel(folder, files):
    """Writes a wheel with these files and those that describe the package. Returns its name."""
    about = f"{NAME}-{_version()}.dist-info"
    files = {**files, **{f"{about}/{name}": content for name, content in _described().items()}}
    record = ""
    for name, content in files.items():
        digest = base64.urlsafe_b64encode(hashlib.sha256(content).digest()).rstrip(b"=").decode()
        record += f"{name},sha256={digest},{len(content)}\n"
    files[f"{about}/RECORD"] = f"{record}{about}/RECORD,,\n".encode()
    name = f"{NAME}-{_version()}-{_tag()}.whl"
    with zipfile.ZipFile(os.path.join(folder, name), "w", zipfile.ZIP_DEFLATED) as wheel:
        for path, content in files.items():
            wheel.writestr(path, content)
    return name


def prepare_metadata_for_build_wheel(metadata_directory, config_settings=None):
    about = f"{NAME}-{_version()}.dist-info"
    for name, content in _described().items():
        path = os.path.join(metadata_directory, about, name)
        os.makedirs(os.path.dirname(path), exist_ok=True)
        with open(path, "wb") as file:
            file.write(content)
    return about


prepare_metadata_for_build_editable = prepare_metadata_for_build_wheel


def build_wheel(wheel_directory, config_settings=None, metadata_directory=None):
    package = os.path.join(HERE, NAME)
    modules = [name for name in sorted(os.listdir(package)) if name.endswith(".py") or name == "py.typed"]
    files = {f"{NAME}/{name}": _bytes(package, name) for name in modules}
    with tempfile.TemporaryDirectory() as folder:
        library = os.path.join(folder, "library.so")
        _linked(library)
        files[f"{NAME}/libnalgebra_sparse.so"] = _bytes(library)
    files[f"{NAME}/VERSION"] = _bytes(TOP, "VERSION")
    return _wheel(wheel_directory, files)


def build_editable(wheel_directory, config_settings=None, metadata_directory=None):
    _version()
    _linked(os.path.join(HERE, NAME, "libnalgebra_sparse.so"))
    return _wheel(wheel_directory, {f"{NAME}_editable.pth": f"{HERE}\n".encode()})


def build_sdist(sdist_directory, config_settings=None):
    sys.exit(f"{NAME} has no source distribution: it is built inside a clone of its repository, with its static library")
