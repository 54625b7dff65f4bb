# SPDX-License-Identifier: Apache-2.0
"""Makes the wheel: the package, with the libraries that tools/build_bindings put into bindings/out, or into DOQALLIN_LIB.

pip calls this by the names of PEP 517. The libraries are for x86-64 Linux, and so is the wheel. Its platform is `linux_x86_64`,
or what config_settings has: tools/release names the version of glibc there. Its files have the time SOURCE_DATE_EPOCH, or 1980.
"""

import base64
import hashlib
import os
import re
import time
import zipfile
from pathlib import Path

_HERE = Path(__file__).resolve().parent
_TOP = _HERE.parents[1]
_VERSION = re.findall(r'^__version__ = "(.*)"$', (_HERE / "doqallin/__init__.py").read_text(encoding="utf-8"), re.M)[0]
_ABOUT = f"doqallin-{_VERSION}.dist-info"
_METADATA = f"""\
Metadata-Version: 2.1
Name: doqallin
Version: {_VERSION}
Summary: Proved casts, bounds, statistics, filters and keys of scalars and of Arrow columns
License: Apache-2.0
License-File: LICENSE
License-File: NOTICE
Requires-Python: >=3.10
"""
_WHEEL = """\
Wheel-Version: 1.0
Generator: doqallin
Root-Is-Purelib: false
Tag: """


def _libraries() -> list[Path]:
    folder = Path(os.environ.get("DOQALLIN_LIB") or _TOP / "bindings/out")
    main, call = folder / "libdoqallin.so", folder / "libdoqallin_call.so"
    if not main.is_file():
        raise FileNotFoundError(f"{main} is not there: run tools/build_bindings --call")
    return [main, call] if call.is_file() else [main]


def _contents(tag: str) -> dict[str, bytes]:
    """What the wheel holds, but for its record."""
    package = sorted(path for path in (_HERE / "doqallin").iterdir() if path.suffix in (".py", ".typed"))
    files = {f"doqallin/{path.name}": path.read_bytes() for path in [*package, *_libraries()]}
    about = {"METADATA": _METADATA.encode(), "WHEEL": f"{_WHEEL}{tag}\n".encode()}
    about |= {f"licenses/{name}": (_TOP / name).read_bytes() for name in ("LICENSE", "NOTICE")}
    return files | {f"{_ABOUT}/{name}": text for name, text in about.items()}


def _record(files: dict[str, bytes]) -> bytes:
    digest = {name: base64.urlsafe_b64encode(hashlib.sha256(text).digest()).rstrip(b"=").decode() for name, text in files.items()}
    lines = [f"{name},sha256={digest[name]},{len(text)}" for name, text in files.items()]
    return "\n".join([*lines, f"{_ABOUT}/RECORD,,", ""]).encode()


def _member(path: str) -> zipfile.ZipInfo:
    """A file of the wheel, with the same time and rights wherever it is made."""
    seconds = int(os.environ.get("SOURCE_DATE_EPOCH") or 0)
    member = zipfile.ZipInfo(path, max((1980, 1, 1, 0, 0, 0), time.gmtime(seconds)[:6]))
    member.external_attr = 0o644 << 16
    member.compress_type = zipfile.ZIP_DEFLATED
    return member


def build_wheel(wheel_directory: str, config_settings: dict[str, str] | None = None, metadata_directory: object = None) -> str:
    """Writes the wheel into the folder, and returns its name."""
    tag = f"py3-none-{(config_settings or {}).get('platform', 'linux_x86_64')}"
    files = _contents(tag)
    files[f"{_ABOUT}/RECORD"] = _record(files)
    name = f"doqallin-{_VERSION}-{tag}.whl"
    with zipfile.ZipFile(Path(wheel_directory) / name, "w") as wheel:
        for path, text in files.items():
            wheel.writestr(_member(path), text)
    return name
