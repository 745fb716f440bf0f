"""Builds the wheel of gix_hash for pip (PEP 517), which needs no other package for it, and no network.

If the library or packtool is in the package, the wheel has it, and is for the platform of config_settings, or else for this
machine.
"""

import base64
import hashlib
import re
import zipfile
from pathlib import Path
from typing import Dict, Optional

HERE = Path(__file__).resolve().parent
ABOUT = """Metadata-Version: 2.4
Name: nunbirdstand
Summary: Git's object ids, over the proved library libgix_hash
License-Expression: MIT OR Apache-2.0
Requires-Python: >=3.9
Classifier: Programming Language :: Python :: Implementation :: CPython
"""
WHEEL = "Wheel-Version: 1.0\nGenerator: backend\nRoot-Is-Purelib: {}\nTag: {}\n"
LIBRARY, PROGRAM = "gix_hash/libgix_hash.so", "gix_hash/packtool"
LICENCES = ("LICENSE-MIT", "LICENSE-APACHE", "NOTICE")


def build_wheel(
    wheel_directory: str, config_settings: Optional[Dict[str, str]] = None, metadata_directory: Optional[str] = None
) -> str:
    """Writes the wheel into a directory, and returns its name. Its bytes depend only on those of its files."""
    names = ("gix_hash/__init__.py", "gix_hash/_store.py", "gix_hash/py.typed", LIBRARY, PROGRAM)
    files = {name: (HERE / name).read_bytes() for name in names if (HERE / name).exists()}
    tag = "py3-none-any"
    if is_built := not files.keys().isdisjoint((LIBRARY, PROGRAM)):
        tag = f"py3-none-{(config_settings or {}).get('platform', 'linux_x86_64')}"
    (version,) = re.findall(r'__version__ = "(.*)"', files["gix_hash/__init__.py"].decode())
    version = version.replace("-dev", ".dev0")
    name = f"nunbirdstand-{version}"
    listed = "".join(f"License-File: {it}\n" for it in LICENCES)
    readme = (HERE / "README.md").read_text(encoding="utf-8")
    about = f"{ABOUT}Version: {version}\n{listed}Description-Content-Type: text/markdown\n\n{readme}"
    files[f"{name}.dist-info/METADATA"] = about.encode()
    for it in LICENCES:
        # (in the repository they are at its top)
        path = next(path for path in (HERE / it, HERE.parents[1] / it) if path.exists())
        files[f"{name}.dist-info/licenses/{it}"] = path.read_bytes()
    files[f"{name}.dist-info/WHEEL"] = WHEEL.format("false" if is_built else "true", tag).encode()
    digests = {file: base64.urlsafe_b64encode(hashlib.sha256(data).digest()).decode() for file, data in files.items()}
    lines = [f"{file},sha256={digests[file].rstrip('=')},{len(data)}\n" for file, data in files.items()]
    files[f"{name}.dist-info/RECORD"] = "".join([*lines, f"{name}.dist-info/RECORD,,\n"]).encode()
    with zipfile.ZipFile(Path(wheel_directory, f"{name}-{tag}.whl"), "w") as wheel:
        for file, data in files.items():
            entry = zipfile.ZipInfo(file)  # of 1980
            # (pip takes the mode from here)
            entry.external_attr, entry.compress_type = (0o100755 if file == PROGRAM else 0o100644) << 16, zipfile.ZIP_DEFLATED
            wheel.writestr(entry, data)
    return f"{name}-{tag}.whl"
