"""Builds the package by Python's standard library alone (PEP 517, PEP 660), so that `pip install ./python` needs no net."""
import base64
import hashlib
import io
import os
import re
import tarfile
import zipfile

HERE = os.path.dirname(os.path.abspath(__file__))
# where the version of the program stands in the repository; a copy has it in a file beside
SOURCE = os.path.join(os.path.dirname(HERE), "crates", "command_line", "src", "usage.rt")


def version():
    """The version of the package is that of the program."""
    beside = os.path.join(HERE, "VERSION")
    if os.path.exists(beside):
        with open(beside, encoding="ascii") as file:
            return file.read().strip()
    with open(SOURCE, encoding="utf-8") as file:
        return re.search(r'VERSION: &str = "dpoly ([0-9.]+)', file.read())[1]


def project():
    """Name and version, and the scripts as pairs of a name and what it calls."""
    with open(os.path.join(HERE, "pyproject.toml"), encoding="utf-8") as file:
        text = file.read()
    values = {**dict(re.findall(r'^([\w-]+) = "([^"]*)"$', text, re.MULTILINE)), "version": version()}
    scripts = re.search(r"^\[project\.scripts\]\n((?:[^\[\n].*\n)*)", text, re.MULTILINE)
    return values, re.findall(r'^([\w-]+) = "([^"]*)"$', scripts[1] if scripts else "", re.MULTILINE)


def metadata(values):
    lines = ["Metadata-Version: 2.1", f"Name: {values['name']}", f"Version: {values['version']}", f"Summary: {values['description']}"]
    return "\n".join([*lines, f"Requires-Python: {values['requires-python']}", "License: MIT OR Apache-2.0", ""]).encode()


def sources():
    folder = os.path.join(HERE, "dpoly")
    return [os.path.join("dpoly", it) for it in sorted(os.listdir(folder)) if it.endswith((".py", ".typed"))]


def wheel(directory, files):
    """Writes a wheel with these files, pairs of a name and bytes, and what describes it; its name."""
    values, scripts = project()
    info = f"{values['name']}-{values['version']}.dist-info"
    files = [
        *files,
        (f"{info}/METADATA", metadata(values)),
        (f"{info}/WHEEL", b"Wheel-Version: 1.0\nGenerator: dpoly\nRoot-Is-Purelib: true\nTag: py3-none-any\n"),
        (f"{info}/entry_points.txt", "".join(["[console_scripts]\n", *(f"{name} = {what}\n" for name, what in scripts)]).encode()),
    ]
    record = [f"{name},sha256={base64.urlsafe_b64encode(hashlib.sha256(text).digest()).rstrip(b'=').decode()},{len(text)}" for name, text in files]
    files.append((f"{info}/RECORD", "\n".join([*record, f"{info}/RECORD,,", ""]).encode()))
    name = f"{values['name']}-{values['version']}-py3-none-any.whl"
    with zipfile.ZipFile(os.path.join(directory, name), "w", zipfile.ZIP_DEFLATED) as archive:
        for at, text in files:
            archive.writestr(at, text)
    return name


def build_wheel(wheel_directory, config_settings=None, metadata_directory=None):
    files = []
    for at in sources():
        with open(os.path.join(HERE, at), "rb") as file:
            files.append((at, file.read()))
    return wheel(wheel_directory, files)


def build_editable(wheel_directory, config_settings=None, metadata_directory=None):
    return wheel(wheel_directory, [("dpoly.pth", HERE.encode() + b"\n")])


def build_sdist(sdist_directory, config_settings=None):
    values, _ = project()
    base = f"{values['name']}-{values['version']}"
    with tarfile.open(os.path.join(sdist_directory, base + ".tar.gz"), "w:gz") as archive:
        for at in ["pyproject.toml", "build_backend.py", "dpoly-smt", *sources()]:
            archive.add(os.path.join(HERE, at), os.path.join(base, at))
        text = (values["version"] + "\n").encode()
        info = tarfile.TarInfo(os.path.join(base, "VERSION"))
        info.size = len(text)
        archive.addfile(info, io.BytesIO(text))
    return base + ".tar.gz"
