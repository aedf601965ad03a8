"""Builds the package's wheel, by the standard library alone. pip calls it (pyproject.toml names it)."""

from __future__ import annotations

import base64
import configparser
import hashlib
import json
import os
import zipfile
from typing import Dict, Mapping, Optional

HERE = os.path.dirname(os.path.abspath(__file__))
PACKAGE = "lazyset"

# Each file of a wheel has a date. This is the first one that a zip file knows.
NO_DATE = (1980, 1, 1, 0, 0, 0)


def project() -> Dict[str, str]:
    """The strings of pyproject.toml's [project]. Its few lines read as an ini file too, which Python 3.8 knows."""
    read = configparser.ConfigParser(interpolation=None)
    with open(os.path.join(HERE, "pyproject.toml"), encoding="utf-8") as file:
        read.read_file(file)
    return {name: json.loads(value) for name, value in read["project"].items() if value.startswith('"')}


def build_wheel(
    wheel_directory: str,
    config_settings: Optional[Mapping[str, object]] = None,
    metadata_directory: Optional[str] = None,
) -> str:
    """Writes the wheel into a folder, and gives its name."""
    told = project()
    label = f"{told['name']}-{told['version']}"
    files = package_files()
    files[f"{label}.dist-info/METADATA"] = metadata(told)
    files[f"{label}.dist-info/WHEEL"] = b"Wheel-Version: 1.0\nGenerator: lazyset\nRoot-Is-Purelib: true\nTag: py3-none-any\n"
    files[f"{label}.dist-info/RECORD"] = record(files, f"{label}.dist-info/RECORD")
    name = f"{label}-py3-none-any.whl"
    with zipfile.ZipFile(os.path.join(wheel_directory, name), "w", zipfile.ZIP_DEFLATED) as wheel:
        for path, text in files.items():
            info = zipfile.ZipInfo(path, NO_DATE)
            info.external_attr = 0o644 << 16
            wheel.writestr(info, text)
    return name


def package_files() -> Dict[str, bytes]:
    files: Dict[str, bytes] = {}
    for name in sorted(os.listdir(os.path.join(HERE, PACKAGE))):
        if name.endswith((".py", ".typed")):
            with open(os.path.join(HERE, PACKAGE, name), "rb") as file:
                files[f"{PACKAGE}/{name}"] = file.read()
    return files


def metadata(told: Mapping[str, str]) -> bytes:
    lines = [
        "Metadata-Version: 2.1",
        f"Name: {told['name']}",
        f"Version: {told['version']}",
        f"Summary: {told['description']}",
        f"Requires-Python: {told['requires-python']}",
        "License: MIT",
    ]
    return "".join(f"{line}\n" for line in lines).encode("utf-8")


def record(files: Mapping[str, bytes], own: str) -> bytes:
    """The list of the wheel's files, with their hashes; it lists itself without one."""
    lines = []
    for path, text in files.items():
        digest = base64.urlsafe_b64encode(hashlib.sha256(text).digest()).decode("ascii").rstrip("=")
        lines.append(f"{path},sha256={digest},{len(text)}")
    return "".join(f"{line}\n" for line in [*lines, f"{own},,"]).encode("utf-8")
