"""Makes the client's wheel for pip, with the standard library alone, by the hooks of PEP 517.
pyproject.toml has the same facts."""

import base64
import hashlib
import os
import tarfile
import zipfile

HERE = os.path.dirname(os.path.abspath(__file__))
NAME = "judyd-1.0.0"
METADATA = """Metadata-Version: 2.1
Name: judyd
Version: 1.0.0
Summary: A client of judyd, the Judy array server, and its command line judy
Requires-Python: >=3.9
"""
WHEEL = "Wheel-Version: 1.0\nGenerator: build_wheel\nRoot-Is-Purelib: true\nTag: py3-none-any\n"
SCRIPTS = "[console_scripts]\njudy = judyd.command:main\n"


def build_wheel(wheel_directory, config_settings=None, metadata_directory=None):
    """Writes the wheel, and returns its name."""
    files = {}
    for name in sorted(os.listdir(os.path.join(HERE, "judyd"))):
        if name.endswith(".py") or name == "py.typed":
            with open(os.path.join(HERE, "judyd", name), "rb") as file:
                files["judyd/" + name] = file.read()
    info = NAME + ".dist-info/"
    files.update({info + "METADATA": METADATA.encode(), info + "WHEEL": WHEEL.encode(), info + "entry_points.txt": SCRIPTS.encode()})
    rows = ["%s,sha256=%s,%d" % (name, _digest(data), len(data)) for name, data in files.items()]
    files[info + "RECORD"] = "\n".join([*rows, info + "RECORD,,", ""]).encode()
    wheel = NAME + "-py3-none-any.whl"
    with zipfile.ZipFile(os.path.join(wheel_directory, wheel), "w", zipfile.ZIP_DEFLATED) as archive:
        for name, data in files.items():
            archive.writestr(name, data)
    return wheel


def _digest(data):
    return base64.urlsafe_b64encode(hashlib.sha256(data).digest()).rstrip(b"=").decode()


def build_sdist(sdist_directory, config_settings=None):
    """Writes the sources as an archive, and returns its name."""
    archive = NAME + ".tar.gz"
    with tarfile.open(os.path.join(sdist_directory, archive), "w:gz") as tar:
        for name in ("judyd", "judy", "pyproject.toml", "build_wheel.py", "README.md"):
            tar.add(os.path.join(HERE, name), NAME + "/" + name, filter=lambda entry: None if "__pycache__" in entry.name else entry)
    return archive
