"""Builds what pip installs, with the standard library alone: a wheel (PEP 427) by the hooks of PEP 517."""

import base64
import hashlib
import os
import tarfile
import zipfile

from sharebroker import __version__

NAME = f"sharebroker-{__version__}"
METADATA = f"""Metadata-Version: 2.1
Name: sharebroker
Version: {__version__}
Summary: A client for sharebroker: producers, share consumers (KIP-932), deletions and a command line
License: Apache-2.0
Requires-Python: >=3.9
"""
WHEEL = """Wheel-Version: 1.0
Generator: wheel_builder
Root-Is-Purelib: true
Tag: py3-none-any
"""
ENTRY_POINTS = """[console_scripts]
sharebroker-client = sharebroker.command:main
"""


def _sources():
    return [f"sharebroker/{name}" for name in sorted(os.listdir("sharebroker")) if name.endswith((".py", "py.typed"))]


def build_wheel(wheel_directory, config_settings=None, metadata_directory=None):
    """Writes the wheel to the folder, and gives its name. The current folder is that of this file."""
    files = {}
    for path in _sources():
        with open(path, "rb") as source:
            files[path] = source.read()
    for name, text in (("METADATA", METADATA), ("WHEEL", WHEEL), ("entry_points.txt", ENTRY_POINTS)):
        files[f"{NAME}.dist-info/{name}"] = text.encode()
    lines = []
    for path, content in files.items():
        digest = base64.urlsafe_b64encode(hashlib.sha256(content).digest()).rstrip(b"=").decode()
        lines.append(f"{path},sha256={digest},{len(content)}\n")
    files[f"{NAME}.dist-info/RECORD"] = ("".join(lines) + f"{NAME}.dist-info/RECORD,,\n").encode()
    wheel = f"{NAME}-py3-none-any.whl"
    with zipfile.ZipFile(os.path.join(wheel_directory, wheel), "w", zipfile.ZIP_DEFLATED) as archive:
        for path, content in files.items():
            archive.writestr(path, content)
    return wheel


def build_sdist(sdist_directory, config_settings=None):
    """Writes the sources to the folder as an archive, and gives its name."""
    archive = f"{NAME}.tar.gz"
    with tarfile.open(os.path.join(sdist_directory, archive), "w:gz") as sources:
        for path in [*_sources(), "pyproject.toml", "wheel_builder.py", "README.md"]:
            sources.add(path, f"{NAME}/{path}")
    return archive
