"""The unit and the scripts, by systemd in a container that has this system's /usr, and an /etc and a network of its own: what `inside.py` tries there."""
from __future__ import annotations

import json
import os
import pathlib
import shutil

import pytest
import stage
from place import LEFT, SCHOOL, TOP, Answer, program, replaced

UNIT = "othello-site@.service"
TRIAL = """[Unit]
Description=The trial
[Service]
Type=oneshot
StandardOutput=append:/told
StandardError=append:/told
Environment=PYTHONDONTWRITEBYTECODE=1 HOME=/root
ExecStart=/usr/bin/python3 -m pytest -q -x -p no:cacheprovider --rootdir=/repository/deploy/trial /repository/deploy/trial/inside.py
ExecStopPost=/bin/sh -c 'systemctl --no-block poweroff 2> /dev/null'
"""
FOLDERS = ("usr", "etc/systemd/system", "etc/othello", "etc/haproxy", "opt/othello", "repository", "root", "tmp", "run", "proc", "sys", "dev", "var/lib/haproxy/dev")


def furnish(root: pathlib.Path, made: dict[str, str], wanted: list[Answer]) -> None:
    """The container's tree: what an operator puts there, and the little that a system needs beside /usr."""
    for name in FOLDERS:
        (root / name).mkdir(parents=True)
    for name in ("bin", "sbin", "lib", "lib64"):
        (root / name).symlink_to(f"usr/{name}")
    for name in ("etc/os-release", "etc/ld.so.cache", "etc/alternatives"):
        source = pathlib.Path("/", name)
        if source.is_dir():
            shutil.copytree(source, root / name, symlinks=True)
        else:
            shutil.copy(source, root / name)
    users = (("root", 0, "/bin/bash"), ("haproxy", 100, "/usr/sbin/nologin"), ("othello", 101, "/usr/sbin/nologin"), ("nobody", 65534, "/usr/sbin/nologin"))
    (root / "etc/passwd").write_text("".join(f"{name}:x:{number}:{number}::/:{shell}\n" for name, number, shell in users))
    (root / "etc/group").write_text("".join(f"{name}:x:{number}:\n" for name, number, _ in users))
    (root / "etc/nsswitch.conf").write_text("passwd: files systemd\ngroup: files systemd\nhosts: files\n")
    (root / "etc/hosts").write_text("127.0.0.1 localhost\n")
    (root / "etc/machine-id").touch()
    site = pathlib.Path(program("SITE", "--ready-site"))
    if site.read_bytes()[:4] != b"\x7fELF":  # (an unproved one is started by a script, which lies beside it)
        site = site.with_name("program")
    shutil.copy(site, root / "opt/othello/othello-site")
    (root / "opt/othello/othello-site").chmod(0o755)
    for name in ("colour", "operator", "upgrade"):
        shutil.copy(TOP / "deploy" / name, root / "opt/othello")
    shutil.copy(TOP / "deploy" / UNIT, root / "etc/systemd/system")
    file = root / "etc/othello/site.toml"
    file.write_text(replaced((TOP / "deploy/site.toml").read_text(), LEFT) + SCHOOL)
    file.chmod(0o640)
    os.chown(file, 0, 101)
    shutil.copy(TOP / "deploy/haproxy.cfg", root / "etc/haproxy")
    (root / "etc/systemd/system/haproxy.service.d").mkdir()
    shutil.copy(TOP / "deploy/haproxy.service.conf", root / "etc/systemd/system/haproxy.service.d/othello.conf")
    (root / "etc/haproxy/named.lst").write_text("127.6.0.0/16\n")
    (root / "etc/haproxy/othello.pem").write_text(pathlib.Path(made["host"] + ".pem").read_text())
    shutil.copy(made["authority"], root / "authority")
    (root / "wanted").write_text(json.dumps(wanted))
    (root / "etc/systemd/system/trial.service").write_text(TRIAL)


def test_units_in_a_container(tmp_path: pathlib.Path, made: dict[str, str], wanted: list[Answer], capsys: pytest.CaptureFixture[str]) -> None:
    if os.geteuid() != 0 or not all(map(shutil.which, ("systemd-nspawn", "haproxy"))):
        pytest.skip("only root may start a container, by systemd-nspawn, and haproxy is in it")
    root = tmp_path / "root"
    furnish(root, made, wanted)
    told = stage.boot(root, "trial.service", "--bind-ro=/usr", f"--bind-ro={TOP}:/repository")
    with capsys.disabled():
        print(f"\n{told}")
    assert " passed" in told and "failed" not in told and "error" not in told.lower(), told
