"""Makes the package's wheel and sdist by Python's own library alone (PEP 517), so that pip needs nothing else for it and no network, in a plain `python3 -m venv`.

The page's files, and the page's module as a program, come into the wheel from beside this folder; in an sdist they lie in the package. Times are SOURCE_DATE_EPOCH's, if it is set,
so that the same sources make the same bytes.
"""
import base64
import gzip
import hashlib
import io
import os
import pathlib
import re
import tarfile
import time
import tomllib
import zipfile

HERE = pathlib.Path(__file__).resolve().parent
CLIENTS = HERE.parent
LEFT_OUT = ("build", "bundle", "test.mjs")  # of the page
EPOCH = 1700000000


def epoch():
    return int(os.environ.get("SOURCE_DATE_EPOCH") or EPOCH)


def about():
    """What pyproject.toml says, and the version."""
    project = tomllib.loads((HERE / "pyproject.toml").read_text(encoding="utf-8"))["project"]
    return project, re.search('__version__ = "(.*?)"', (HERE / "src/coluwen/__init__.py").read_text(encoding="utf-8"))[1]


def package():
    """The package's files by their names in a wheel."""
    found = {path.relative_to(HERE / "src").as_posix(): path for path in (HERE / "src/coluwen").rglob("*") if path.is_file() and "__pycache__" not in path.parts}
    page = CLIENTS / "page"
    if page.is_dir():
        found |= {f"coluwen/page/static/{path.relative_to(page).as_posix()}": path for path in page.rglob("*") if path.is_file() and path.name not in LEFT_OUT}
        found["coluwen/page/static/engine/othello-wasm"] = CLIENTS / "bin/othello-wasm"
    return dict(sorted(found.items()))


def licence():
    return next(path for path in (HERE / "LICENSE", CLIENTS.parent / "LICENSE") if path.is_file()).read_bytes()


def metadata():
    project, version = about()
    lines = ["Metadata-Version: 2.1", f"Name: {project['name']}", f"Version: {version}", f"Summary: {project['description']}", f"License: {project['license']['text']}",
             *(f"Classifier: {one}" for one in project["classifiers"]), f"Requires-Python: {project['requires-python']}", "Description-Content-Type: text/markdown",
             "License-File: LICENSE"]  # fmt: skip
    return ("\n".join(lines) + "\n\n" + (HERE / "README.md").read_text(encoding="utf-8")).encode()


def write_wheel(folder, files, tag):
    """A wheel of these files, bytes and whether one is a program, by their names."""
    project, version = about()
    name, info = f"{project['name']}-{version}", f"{project['name']}-{version}.dist-info"
    commands = "".join(f"{command} = {where}\n" for command, where in project["scripts"].items())
    told = {"METADATA": metadata(), "LICENSE": licence(), "entry_points.txt": f"[console_scripts]\n{commands}".encode(),
            "WHEEL": f"Wheel-Version: 1.0\nGenerator: coluwen\nRoot-Is-Purelib: true\nTag: {tag}\n".encode()}  # fmt: skip
    files |= {f"{info}/{path}": (text, False) for path, text in told.items()}
    sums = {path: base64.urlsafe_b64encode(hashlib.sha256(data).digest()).rstrip(b"=").decode() for path, (data, _) in files.items()}
    record = "".join(f"{path},sha256={one},{len(files[path][0])}\n" for path, one in sums.items()) + f"{info}/RECORD,,\n"
    with zipfile.ZipFile(pathlib.Path(folder, f"{name}-{tag}.whl"), "w", zipfile.ZIP_DEFLATED) as wheel:
        for path, (data, is_program) in {**files, f"{info}/RECORD": (record.encode(), False)}.items():
            entry = zipfile.ZipInfo(path, time.gmtime(epoch())[:6])
            entry.external_attr, entry.compress_type = (0o100755 if is_program else 0o100644) << 16, zipfile.ZIP_DEFLATED
            wheel.writestr(entry, data)
    return f"{name}-{tag}.whl"


def build_wheel(wheel_directory, config_settings=None, metadata_directory=None):
    """The wheel: for any platform, or for that which the setting `platform` names, as it has a program of it."""
    files = {path: (one.read_bytes(), os.access(one, os.X_OK)) for path, one in package().items()}
    return write_wheel(wheel_directory, files, f"py3-none-{(config_settings or {}).get('platform', 'any')}")


def build_editable(wheel_directory, config_settings=None, metadata_directory=None):
    """A wheel that says where the sources are."""
    return write_wheel(wheel_directory, {"coluwen.pth": (f"{HERE / 'src'}\n".encode(), False)}, "py3-none-any")


def build_sdist(sdist_directory, config_settings=None):
    """The sources, the page's files in the package."""
    project, version = about()
    name, data = f"{project['name']}-{version}", io.BytesIO()
    files = {f"src/{path}": (one.read_bytes(), os.access(one, os.X_OK)) for path, one in package().items() if not path.startswith("coluwen/program/")}
    told = {path: (HERE / path).read_bytes() for path in ("README.md", "backend.py", "pyproject.toml")} | {"LICENSE": licence(), "PKG-INFO": metadata()}
    files |= {path: (text, False) for path, text in told.items()}
    with tarfile.open(fileobj=data, mode="w", format=tarfile.USTAR_FORMAT) as archive:
        for path, (text, is_program) in sorted(files.items()):
            entry = tarfile.TarInfo(f"{name}/{path}")
            entry.size, entry.mtime, entry.mode = len(text), epoch(), 0o755 if is_program else 0o644
            archive.addfile(entry, io.BytesIO(text))
    pathlib.Path(sdist_directory, f"{name}.tar.gz").write_bytes(gzip.compress(data.getvalue(), 9, mtime=0))
    return f"{name}.tar.gz"
