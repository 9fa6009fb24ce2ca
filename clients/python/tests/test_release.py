"""release/build names all that is missing before it begins, which takes minutes."""
from __future__ import annotations

import os
import pathlib
import subprocess
import sys

TOP = pathlib.Path(__file__).resolve().parents[3]


def test_what_is_missing_is_named_before_anything_is_begun(tmp_path: pathlib.Path) -> None:
    for name in ("git", "tar", "gzip", "env"):  # and no more
        (tmp_path / name).symlink_to(f"/usr/bin/{name}")
    words = [sys.executable, TOP / "release/build", "--trial", tmp_path / "out"]
    said = subprocess.run([*map(str, words)], env={**os.environ, "PATH": str(tmp_path)}, capture_output=True, text=True, timeout=60, check=False)
    assert said.returncode == 1 and said.stderr.startswith("build: these packages of Debian are missing: apt install ") and not (tmp_path / "out").exists()
    assert {"debhelper", "dh-python", "help2man", "default-jdk-headless", "binutils"} <= set(said.stderr.split())
