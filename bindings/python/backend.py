"""Builds the wheel and the source archive of this package (PEP 517), with no more than the standard library, so that `pip install .` needs no network.

The wheel carries the C library where `-C library=FILE` names it, which is what it is tagged for by `-C platform=TAG`, as `manylinux_2_17_x86_64`; texts of
licences besides those here are the files of `-C licences=FOLDER`. It has the same bytes each time: its files have the time that SOURCE_DATE_EPOCH says, or
that of 1980.
"""

from __future__ import annotations

import base64
import hashlib
import os
import pathlib
import tarfile
import time
import tomllib
import zipfile
from typing import Any

HERE = pathlib.Path(__file__).parent
PROJECT = tomllib.loads((HERE / "pyproject.toml").read_text(encoding="utf-8"))["project"]
NAME = f"{PROJECT['name'].replace('-', '_')}-{PROJECT['version']}"
EXTRAS = "".join(
    f"Provides-Extra: {extra}\n" + "".join(f'Requires-Dist: {it}; extra == "{extra}"\n' for it in wanted)
    for extra, wanted in PROJECT["optional-dependencies"].items()
)
METADATA = f"""Metadata-Version: 2.1
Name: {PROJECT["name"]}
Version: {PROJECT["version"]}
Summary: {PROJECT["description"]}
License: {PROJECT["license"]["text"]}
Requires-Python: {PROJECT["requires-python"]}
{EXTRAS}Description-Content-Type: text/markdown

{(HERE / "README.md").read_text(encoding="utf-8")}"""
SCRIPTS = "".join(f"{name} = {called}\n" for name, called in PROJECT["scripts"].items())
WHEEL = "Wheel-Version: 1.0\nGenerator: backend.py\nRoot-Is-Purelib: {purelib}\nTag: {tag}\n"
LICENCES = "LICENSE-APACHE", "LICENSE-MIT"
# as `_library.py` looks for it
LIBRARY = "x509_cert/libx509.so"


def _moment() -> tuple[int, int, int, int, int, int]:
    """The time of the files in a wheel, none of which can be before 1980."""
    found = time.gmtime(max(int(os.environ.get("SOURCE_DATE_EPOCH", "0")), 315532800))
    return found[:6]


def _files(tag: str, library: str | None, licences: str | None) -> dict[str, bytes]:
    """The files of a wheel with its tag, but for the record of them."""
    files = {it.relative_to(HERE / "src").as_posix(): it.read_bytes() for it in sorted((HERE / "src").rglob("*")) if it.suffix in (".py", ".typed")}
    if library:
        files[LIBRARY] = pathlib.Path(library).read_bytes()
    more = sorted(it for it in pathlib.Path(licences).iterdir() if it.is_file()) if licences else []
    texts = [HERE / name for name in LICENCES if (HERE / name).is_file()] + more
    files |= {f"{NAME}.dist-info/licenses/{it.name}": it.read_bytes() for it in texts}
    wheel = WHEEL.format(purelib=str(library is None).lower(), tag=tag)
    told = {"METADATA": METADATA, "WHEEL": wheel, "entry_points.txt": f"[console_scripts]\n{SCRIPTS}"}
    return files | {f"{NAME}.dist-info/{name}": text.encode() for name, text in told.items()}


def build_wheel(wheel_directory: str, config_settings: Any = None, metadata_directory: str | None = None) -> str:
    settings = config_settings or {}
    library = settings.get("library")
    tag = f"py3-none-{settings.get('platform', 'linux_x86_64') if library else 'any'}"
    files = _files(tag, library, settings.get("licences"))
    digest = {name: base64.urlsafe_b64encode(hashlib.sha256(data).digest()).rstrip(b"=").decode() for name, data in files.items()}
    record = "".join(f"{name},sha256={digest[name]},{len(data)}\n" for name, data in files.items()) + f"{NAME}.dist-info/RECORD,,\n"
    wheel = f"{NAME}-{tag}.whl"
    with zipfile.ZipFile(pathlib.Path(wheel_directory) / wheel, "w", zipfile.ZIP_DEFLATED) as archive:
        for name, data in (files | {f"{NAME}.dist-info/RECORD": record.encode()}).items():
            entry = zipfile.ZipInfo(name, _moment())
            entry.compress_type, entry.external_attr, entry.create_system = zipfile.ZIP_DEFLATED, 0o100644 << 16, 3
            archive.writestr(entry, data)
    return wheel


def build_sdist(sdist_directory: str, config_settings: Any = None) -> str:
    archive = f"{NAME}.tar.gz"
    with tarfile.open(pathlib.Path(sdist_directory) / archive, "w:gz") as it:
        for part in "backend.py", "pyproject.toml", "README.md", *LICENCES, "src":
            it.add(HERE / part, f"{NAME}/{part}", filter=lambda found: None if "__pycache__" in found.name else found)
    return archive
