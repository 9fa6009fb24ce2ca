"""The package as pip installs it of a checkout, by the command that the documents name."""
from __future__ import annotations

import importlib.util
import os
import pathlib
import shutil
import subprocess
import sys
import zipfile

import pytest

HERE = pathlib.Path(__file__).resolve().parents[1]


@pytest.mark.skipif(not all(map(importlib.util.find_spec, ("venv", "ensurepip"))), reason="venv or ensurepip isn't here")
def test_pip_installs_the_checkout_in_a_plain_environment_and_leaves_nothing_in_it(tmp_path: pathlib.Path) -> None:
    """Without an index and without wheel, whose absence the older way didn't bear; what is installed has the page and a program by node."""

    def files() -> set[pathlib.Path]:
        return {path for path in HERE.rglob("*") if "__pycache__" not in path.parts}

    before, around = files(), {**os.environ, "PYTHONPATH": "", "PIP_NO_INDEX": "1", "PATH": "/usr/bin:/bin"}
    subprocess.run([sys.executable, "-m", "venv", tmp_path / "plain"], check=True, timeout=200)
    python = tmp_path / "plain/bin/python"
    assert subprocess.run([python, "-c", "import wheel"], env=around, capture_output=True, check=False).returncode
    done = subprocess.run([tmp_path / "plain/bin/pip", "install", "--quiet", HERE], env=around, capture_output=True, text=True, timeout=200, check=False)
    assert not done.returncode, done.stderr
    assert files() == before
    shown = "import coluwen.page.files as files; print(len(files.texts()['/board.html'][1]) > 100000, files.__file__)"
    said = subprocess.run([python, "-c", shown], cwd=tmp_path, env=around, capture_output=True, text=True, check=True).stdout.split()
    assert said[0] == "True" and said[1].startswith(str(tmp_path))
    batch = subprocess.run([tmp_path / "plain/bin/coluwen-batch", "--version"], env=around, capture_output=True, text=True, check=True).stdout
    assert batch.startswith("coluwen-batch (coluwen) ")
    if shutil.which("node", path="/usr/bin:/bin") and not shutil.which("othello", path="/usr/bin:/bin"):
        engine = subprocess.run([python, "-c", "import coluwen; print(coluwen.Engine(1).program)"], cwd=tmp_path, env=around, capture_output=True, text=True, check=True).stdout
        assert engine.strip().endswith("engine/othello-wasm") and engine.startswith(str(tmp_path))


def test_the_same_sources_make_the_same_bytes(tmp_path: pathlib.Path) -> None:
    for name in ("one", "other"):
        subprocess.run([sys.executable, HERE / "packages.py", "packages", tmp_path / name], check=True, timeout=200)
    made = sorted(path.name for path in (tmp_path / "one").iterdir())
    assert len(made) == 2 and all((tmp_path / "one" / name).read_bytes() == (tmp_path / "other" / name).read_bytes() for name in made)
    with zipfile.ZipFile(tmp_path / "one" / made[0]) as wheel:
        assert wheel.testzip() is None and "coluwen/page/static/engine/page32.wasm" in wheel.namelist()
