"""Builds the wheel of the package (PEP 517, PEP 427) with Python alone, so that `pip install ./python` needs no network."""

import base64
import hashlib
import os
import tomllib
import zipfile

HERE = os.path.dirname(os.path.abspath(__file__))
WHEEL = "Wheel-Version: 1.0\nGenerator: latchsorrel\nRoot-Is-Purelib: true\nTag: py3-none-any\n"


def project():
    """The table `project` of pyproject.toml."""
    with open(f"{HERE}/pyproject.toml", "rb") as file:
        return tomllib.load(file)["project"]


def sources(package):
    """The files of the package, each with its bytes."""
    for name in sorted(it for it in os.listdir(f"{HERE}/{package}") if it.endswith((".py", ".typed"))):
        with open(f"{HERE}/{package}/{name}", "rb") as file:
            yield f"{package}/{name}", file.read()


def record_row(path, data):
    digest = base64.urlsafe_b64encode(hashlib.sha256(data).digest()).rstrip(b"=").decode()
    return f"{path},sha256={digest},{len(data)}\n"


def build_wheel(wheel_directory, config_settings=None, metadata_directory=None):
    """Writes the wheel into a folder, and returns its name."""
    about = project()
    stem = f"{about['name']}-{about['version']}"
    info = f"{stem}.dist-info"
    metadata = f"Metadata-Version: 2.1\nName: {about['name']}\nVersion: {about['version']}\nSummary: {about['description']}\nRequires-Python: {about['requires-python']}\n"
    points = "".join(f"[{group}]\n" + "".join(f"{name} = {it}\n" for name, it in named.items()) for group, named in about["entry-points"].items())
    files = dict(sources(about["name"]))
    files |= {f"{info}/{name}": text.encode() for name, text in (("METADATA", metadata), ("WHEEL", WHEEL), ("entry_points.txt", points))}
    record = "".join(record_row(path, data) for path, data in files.items()) + f"{info}/RECORD,,\n"
    with zipfile.ZipFile(f"{wheel_directory}/{stem}-py3-none-any.whl", "w") as wheel:
        for path, data in (*files.items(), (f"{info}/RECORD", record.encode())):
            wheel.writestr(path, data)
    return f"{stem}-py3-none-any.whl"
