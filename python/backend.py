"""Builds the wheel of this package for pip (PEP 517), with the standard library alone, so that
``pip install --no-index ./python`` needs no network and no build tool.

The header ``include/toralinge.h`` goes into the wheel, and the library ``target/libtoralinge.so`` with its bridge where
``./library`` has made them.
"""
from __future__ import annotations

import base64
import hashlib
import re
import sysconfig
import tomllib
import zipfile
from pathlib import Path
from typing import Any, Iterator, Optional

HERE = Path(__file__).resolve().parent
BESIDE = {"toralinge.h": "include", "libtoralinge.so": "target", "toralinge-bridge": "target"}


def _version() -> str:
    found = re.search(r'__version__ = "([^"]+)"', (HERE / "toralinge" / "_version.py").read_text(encoding="utf-8"))
    assert found is not None
    return found[1]


def _project() -> dict[str, Any]:
    project: dict[str, Any] = tomllib.loads((HERE / "pyproject.toml").read_text(encoding="utf-8"))["project"]
    return project


def _metadata() -> str:
    project = _project()
    lines = ["Metadata-Version: 2.1", f"Name: {project['name']}", f"Version: {_version()}", f"Summary: {project['description']}",
             f"Requires-Python: {project['requires-python']}"]
    for extra, wanted in project["optional-dependencies"].items():
        lines.append(f"Provides-Extra: {extra}")
        lines += [f"Requires-Dist: {one}; extra == '{extra}'" for one in wanted]
    return "\n".join(lines) + "\n"


def _files() -> Iterator[tuple[str, Path]]:
    """The files of the package: its sources, and what comes from the tree where it does not lie beside them."""
    for path in sorted((HERE / "toralinge").iterdir()):
        if path.is_file():
            yield f"toralinge/{path.name}", path
    for name, folder in BESIDE.items():
        path = HERE.parent / folder / name
        if path.is_file() and not (HERE / "toralinge" / name).exists():
            yield f"toralinge/{name}", path


def _tag(files: list[tuple[str, Path]]) -> str:
    """A wheel with the library in it is for this platform; without it, for any."""
    if any(name.endswith(".so") for name, _ in files):
        return f"py3-none-{re.sub('[^A-Za-z0-9]', '_', sysconfig.get_platform())}"
    return "py3-none-any"


def build_wheel(wheel_directory: str, config_settings: Optional[dict[str, str]] = None, metadata_directory: Optional[str] = None) -> str:
    """Writes the wheel and gives its name."""
    files = list(_files())
    tag, full = _tag(files), f"toralinge-{_version()}"
    info = f"{full}.dist-info"
    name = f"{full}-{tag}.whl"
    wheel = f"Wheel-Version: 1.0\nGenerator: toralinge\nRoot-Is-Purelib: {'true' if tag.endswith('any') else 'false'}\nTag: {tag}\n"
    held = [(place, path.read_bytes(), path.stat().st_mode & 0o777) for place, path in files]
    held += [(f"{info}/METADATA", _metadata().encode(), 0o644), (f"{info}/WHEEL", wheel.encode(), 0o644)]
    record = []
    with zipfile.ZipFile(Path(wheel_directory) / name, "w", zipfile.ZIP_DEFLATED) as archive:
        for place, data, mode in held:
            digest = base64.urlsafe_b64encode(hashlib.sha256(data).digest()).rstrip(b"=").decode()
            record.append(f"{place},sha256={digest},{len(data)}")
            entry = zipfile.ZipInfo(place)
            entry.external_attr = (0o100000 | mode) << 16
            entry.compress_type = zipfile.ZIP_DEFLATED
            archive.writestr(entry, data)
        archive.writestr(f"{info}/RECORD", "\n".join([*record, f"{info}/RECORD,,"]) + "\n")
    return name
