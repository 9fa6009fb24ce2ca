"""The files beside the program: Prometheus' rules, the dashboard, the unit, HAProxy's file, the image and what runs it."""
from __future__ import annotations

import json
import os
import pathlib
import re
import shutil
import signal
import stat
import subprocess
from typing import Any

import pytest
from place import TOP, Site, program, until

DEPLOY = TOP / "deploy"
SCHEMA = pathlib.Path("/usr/lib/python3/dist-packages/compose/config/compose_spec.json")  # of Debian's docker-compose


def needs(name: str) -> None:
    if not shutil.which(name):
        pytest.skip(f"without {name}")


def test_rules_tell_of_what_they_are_for() -> None:
    needs("promtool")
    subprocess.run(["promtool", "test", "rules", "alerts_test.yml"], cwd=DEPLOY, check=True, capture_output=True)


def test_each_alert_is_tried_and_has_its_line_in_the_runbook() -> None:
    text, tried, runbook = ((TOP / name).read_text() for name in ("deploy/alerts.yml", "deploy/alerts_test.yml", "docs/DEPLOY.md"))
    alerts = re.findall(r"alert: (\w+)", text)
    heads = {re.sub(r"[^\w -]", "", head.lower()).strip().replace(" ", "-") for head in re.findall(r"^#+ (.*)", runbook, re.M)}
    anchors = heads | set(re.findall(r'(?:id|name)="([\w-]+)"', runbook))
    places = re.findall(r"runbook: docs/DEPLOY.md#([\w-]+)", text)
    assert len(alerts) == len(places) and set(places) <= anchors, set(places) - anchors
    assert all(tried.count(f"alertname: {alert}\n") >= 2 for alert in alerts)


def test_rules_and_dashboard_ask_for_what_the_program_says() -> None:
    with Site() as site:
        said = site.get("/metrics")[1]
    asked = (DEPLOY / "alerts.yml").read_text() + "".join(target["expr"] for panel in json.loads((DEPLOY / "dashboard.json").read_text())["panels"] for target in panel["targets"])
    for name in set(re.findall(r"othello_site_\w+", asked)):
        assert re.search(rf"^{name}[{{ ]", said, re.M), name
    for reasons in re.findall(r'reason=~?"([\w|]+)"', asked):
        assert all(f'reason="{reason}"' in said for reason in reasons.split("|")), reasons


def test_the_unit_is_well_formed_and_hardened(tmp_path: pathlib.Path) -> None:
    needs("systemd-analyze")
    unit = tmp_path / "othello-site@.service"
    unit.write_text((DEPLOY / unit.name).read_text().replace("/opt/othello/", "/bin/true "))
    said = subprocess.run(["systemd-analyze", "verify", "--man=no", tmp_path / "othello-site@blue.service"], capture_output=True, text=True)
    assert str(tmp_path) not in said.stderr and "othello-site@blue.service:" not in said.stderr, said.stderr
    told = subprocess.run(["systemd-analyze", "security", "--offline=yes", "--no-pager", unit], capture_output=True, text=True).stdout
    level = re.search(r"exposure level for \S+: ([\d.]+)", told)
    assert level and float(level[1]) < 1.5, told[-300:]


def test_each_colour_has_places_of_its_own(tmp_path: pathlib.Path) -> None:
    file, script = tmp_path / "site.toml", tmp_path / "colour"
    script.write_text((DEPLOY / script.name).read_text().replace("/etc/othello", str(tmp_path)).replace("> \"/run/", f"> \"{tmp_path}/"))
    text = (DEPLOY / file.name).read_text()

    def made(colour: str, text: str) -> tuple[int, str, list[str]]:
        """The status, what is said, and the lines that are other than in the text."""
        file.write_text(text)
        written = tmp_path / f"othello-site-{colour}/site.toml"
        written.parent.mkdir(exist_ok=True)
        written.unlink(missing_ok=True)
        run = subprocess.run(["bash", script, colour], capture_output=True, text=True)
        lines = written.read_text().splitlines() if written.exists() else []
        return run.returncode, run.stderr, [line.split(" #")[0].strip() for line, old in zip(lines, text.splitlines()) if line != old]

    controls = [f'control = "/run/othello-site-{colour}/control"' for colour in ("blue", "green")]
    assert made("blue", text) == (0, "", controls[:1])
    assert made("green", text) == (0, "", ['listen = "127.0.0.1:4730"', 'health = "127.0.0.1:4729"', *controls[1:]])
    for old, new, name in (("# plain =", "plain =", "plain"), ("127.0.0.1:4720", "0.0.0.0:4720", "listen"), ('health = "127.0.0.1:4719"', 'health="127.0.0.1:4719"', "health"), ("control =", "# control =", "control")):
        assert old in text
        for colour in ("blue", "green"):
            status, said, written = made(colour, text.replace(old, new, 1))
            assert status == 2 and f"`{name}" in said and not written, (new, said)
    assert subprocess.run(["bash", script, "red"], capture_output=True).returncode == 2


@pytest.fixture(scope="session")
def image(tmp_path_factory: pytest.TempPathFactory) -> pathlib.Path:
    """The image's tree, as a container has it."""
    needs("umoci")
    wanted = pathlib.Path(program("SITE", "--ready-site"))
    if wanted.read_bytes()[:4] != b"\x7fELF":  # (an unproved one is started by a script, which lies beside it)
        wanted = wanted.with_name("program")
    folder = tmp_path_factory.mktemp("image")
    said = subprocess.run([DEPLOY / "image/build", folder / "layout", wanted], check=True, capture_output=True, text=True).stdout
    subprocess.run(["umoci", "unpack", *([] if os.geteuid() == 0 else ["--rootless"]), "--image", said.strip().removeprefix("oci:"), folder / "bundle"], check=True, capture_output=True)
    return folder / "bundle"


def test_an_image_serves(image: pathlib.Path) -> None:
    run = json.loads((image / "config.json").read_text())["process"]
    assert run["args"] == ["/usr/bin/init", "/etc/othello/site.toml"] and run["user"]["uid"] == run["user"]["gid"] == 4711
    assert not [path for path in image.rglob("*") if path.is_file() and path.stat().st_mode & 0o6000]
    if os.geteuid() != 0:
        pytest.skip("only root may take another root")
    (image / "rootfs/dev").mkdir(exist_ok=True)
    os.mknod(image / "rootfs/dev/null", 0o666 | stat.S_IFCHR, os.makedev(1, 3))  # (as every container has)
    os.chmod(image / "rootfs/dev/null", 0o666)
    log = image / "log"
    with log.open("w") as file:
        command = ["unshare", "--net", "--mount", "--pid", "--fork", "--kill-child", "chroot", "--userspec=4711:4711", image / "rootfs", *run["args"]]
        process = subprocess.Popen(command, stdout=file, stderr=subprocess.STDOUT)
    try:  # (its network has no address: it can listen only where it has brought up its own)
        until(lambda: process.poll() is not None or "listening 127.0.0.1:4720" in log.read_text(), 20, "it listens")
        assert process.poll() is None, log.read_text()
        first = int(subprocess.run(["pgrep", "-P", str(process.pid)], capture_output=True, text=True, check=True).stdout)
        os.kill(first, signal.SIGHUP)
        until(lambda: 'event=command line="RELOAD"' in log.read_text(), 20, "it reads its file again")
        os.kill(first, signal.SIGTERM)
        until(lambda: process.poll() is not None, 30, "it ends when the last session has left")
        assert process.returncode == 0 and 'event=command line="DRAIN 600"' in log.read_text(), log.read_text()
    finally:
        process.kill()
        process.wait()


def documents(name: str) -> list[Any]:
    yaml = pytest.importorskip("yaml")
    return list(yaml.safe_load_all((DEPLOY / "image" / name).read_text()))


def test_compose_is_as_its_schema_says() -> None:
    jsonschema = pytest.importorskip("jsonschema")
    if not SCHEMA.exists():
        pytest.skip("without docker-compose, which has the schema")
    jsonschema.Draft7Validator(json.loads(SCHEMA.read_text())).validate(documents("compose.yaml")[0])


def test_compose_and_kubernetes_run_the_same_site() -> None:
    compose, (deployment, service) = documents("compose.yaml")[0]["services"], documents("kubernetes.yaml")
    pod = deployment["spec"]["template"]["spec"]
    site, proxy = pod["containers"]
    version = (TOP / "VERSION").read_text().strip()
    assert site["image"] == compose["site"]["image"] == f"othello-site:{version}" and proxy["image"] == compose["proxy"]["image"] and proxy["command"] == compose["proxy"]["command"]
    assert compose["proxy"]["network_mode"] == "service:site"
    for container in (site, proxy):
        assert {mount["name"] for mount in container["volumeMounts"]} <= {volume["name"] for volume in pod["volumes"]}
        assert container["securityContext"]["capabilities"]["drop"] == ["ALL"] and container["securityContext"]["readOnlyRootFilesystem"]
    ports = {port["name"]: port["containerPort"] for port in proxy["ports"]}
    assert service["spec"]["ports"][0]["targetPort"] in ports and ports["sessions"] == 4700 and proxy["readinessProbe"]["httpGet"]["port"] in ports
    labels = deployment["spec"]["template"]["metadata"]["labels"]
    assert service["spec"]["selector"] == deployment["spec"]["selector"]["matchLabels"] == labels
    assert 600 < proxy["lifecycle"]["preStop"]["sleep"]["seconds"] < pod["terminationGracePeriodSeconds"]
    assert compose["site"]["ulimits"]["nofile"] == 20000 and compose["site"]["stop_grace_period"] == "630s"


def test_haproxy_takes_the_files(tmp_path: pathlib.Path, made: dict[str, str]) -> None:
    needs("haproxy")
    (tmp_path / "othello.pem").write_text(pathlib.Path(made["host"] + ".pem").read_text())
    (tmp_path / "named.lst").touch()
    for name in ("haproxy.cfg", "web.cfg"):
        (tmp_path / name).write_text((DEPLOY / name).read_text().replace("/etc/haproxy", str(tmp_path)))
    said = subprocess.run(["haproxy", "-c", "-f", tmp_path / "haproxy.cfg", "-f", tmp_path / "web.cfg", "-f", DEPLOY / "image/pod.cfg"], capture_output=True, text=True)
    assert said.returncode == 0 and "WARNING" not in said.stdout + said.stderr, said
