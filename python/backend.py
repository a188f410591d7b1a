"""Builds the package for pip (PEP 517 and 660) with the standard library alone, so that it is installed without a network."""

import base64
import hashlib
import os
import re
import zipfile

HERE = os.path.dirname(os.path.abspath(__file__))


def _field(name):
    """A field of pyproject.toml, which has each on a line of its own."""
    with open(f"{HERE}/pyproject.toml", encoding="utf-8") as file:
        found = re.search(rf'^{name} = "(.*)"$', file.read(), re.M)
    return found[1] if found else ""


def _label():
    return f"{_field('name')}-{_field('version')}"


def _metadata():
    with open(f"{HERE}/README.md", encoding="utf-8") as file:
        fields = [("Metadata-Version", "2.1"), ("Name", _field("name")), ("Version", _field("version")), ("Summary", _field("description")),
                  ("Requires-Python", _field("requires-python")), ("Description-Content-Type", "text/markdown")]
        return "".join(f"{name}: {value}\n" for name, value in fields) + "\n" + file.read()


def _sources():
    """The modules, by their names in the wheel."""
    for at, folders, names in os.walk(f"{HERE}/{_field('name')}"):
        folders[:] = sorted(it for it in folders if it != "__pycache__")
        for name in sorted(names):
            if name.endswith((".py", ".typed")):
                path = os.path.join(at, name)
                with open(path, encoding="utf-8") as file:
                    yield os.path.relpath(path, HERE).replace(os.sep, "/"), file.read()


def _write_wheel(folder, files):
    name, info, rows = f"{_label()}-py3-none-any.whl", f"{_label()}.dist-info", []
    wheel = "Wheel-Version: 1.0\nGenerator: backend\nRoot-Is-Purelib: true\nTag: py3-none-any\n"
    with zipfile.ZipFile(os.path.join(folder, name), "w", zipfile.ZIP_DEFLATED) as archive:
        for path, text in [*files, (f"{info}/METADATA", _metadata()), (f"{info}/WHEEL", wheel)]:
            data = text.encode()
            archive.writestr(path, data)
            digest = base64.urlsafe_b64encode(hashlib.sha256(data).digest()).rstrip(b"=").decode()
            rows.append(f"{path},sha256={digest},{len(data)}\n")
        archive.writestr(f"{info}/RECORD", "".join(rows) + f"{info}/RECORD,,\n")
    return name


def build_wheel(wheel_directory, config_settings=None, metadata_directory=None):
    return _write_wheel(wheel_directory, list(_sources()))


def build_editable(wheel_directory, config_settings=None, metadata_directory=None):
    return _write_wheel(wheel_directory, [(f"{_field('name')}.pth", f"{HERE}\n")])
