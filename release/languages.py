#!/usr/bin/env python3
"""The packages of the clients' languages, each of its own kind: wheels and an sdist, an npm tgz, jars with their pom.

usage: release/languages.py make TREE OUT    (of the tree of a release's archive, or a checkout; times by SOURCE_DATE_EPOCH)
       release/languages.py try OUT          (OUT: a release; what isn't installed here is skipped and named)

Where TREE is no checkout, its program `othello` (and `othello-v3`) lies in the wheel for this platform and in the jar. `try` installs each from OUT alone, by `pip install`, by
`npm install ./..tgz` and by Maven without a registry (Debian's packages), and runs the programs of its README: the first without a server and without a network, the second
with a server of the archive.
"""
import contextlib
import gzip
import io
import json
import os
import pathlib
import re
import shutil
import socket
import subprocess
import sys
import tarfile
import tempfile
import time

PYTHON = "/usr/bin/python3"  # Debian's, with python3-setuptools, python3-wheel and python3-pip
MAVEN = pathlib.Path("/usr/share/maven-repo")  # of Debian's packages
PLUGINS = ("install", "compiler", "resources")
SETTINGS = f"""<settings xmlns="http://maven.apache.org/SETTINGS/1.0.0"><mirrors><mirror><id>debian</id><mirrorOf>*</mirrorOf><url>file://{MAVEN}</url></mirror></mirrors></settings>"""
PROJECT = """<project xmlns="http://maven.apache.org/POM/4.0.0">
  <modelVersion>4.0.0</modelVersion><groupId>example</groupId><artifactId>first</artifactId><version>1</version>
  <properties><maven.compiler.release>17</maven.compiler.release><project.build.sourceEncoding>UTF-8</project.build.sourceEncoding></properties>
  <dependencies><dependency><groupId>org.coluwen</groupId><artifactId>coluwen</artifactId><version>{}</version></dependency></dependencies>
  <build><plugins>
    <plugin><groupId>org.apache.maven.plugins</groupId><artifactId>maven-compiler-plugin</artifactId><version>3.10.1</version></plugin>
    <plugin><groupId>org.apache.maven.plugins</groupId><artifactId>maven-resources-plugin</artifactId><version>3.3.0</version></plugin>
  </plugins></build>
</project>
"""
SAID = r"0 d3\b"  # what a first program says first: the opening at depth 6


def fail(text):
    sys.exit(f"languages: {text}")


def make(tree, out, epoch):
    """Makes the packages of a tree into a folder."""
    about = json.loads((tree / "clients/javascript/package.json").read_text())
    pack_npm(tree, out / f"{about['name']}-{about['version']}.tgz", about["files"], epoch)
    if f"  <version>{about['version']}</version>" not in (tree / "clients/java/pom.xml").read_text() or about["version"] != (tree / "VERSION").read_text().strip():
        fail("VERSION, package.json and pom.xml have other versions")
    programs = [path for path in (tree / "othello", tree / "othello-v3") if path.is_file() and not (tree / "crates").exists()]  # a checkout has a script there
    around = dict(os.environ, SOURCE_DATE_EPOCH=str(epoch))
    subprocess.run([tree / "clients/java/build", "jars", out, *programs], check=True, env=around)
    subprocess.run([PYTHON, tree / "clients/python/packages.py", "packages", out, *programs], check=True, env=around, stdout=subprocess.DEVNULL)
    settle(out / f"coluwen-{about['version']}.tar.gz", epoch)


def settle(path, epoch):
    """The times of an sdist are the commit's."""
    data = io.BytesIO()
    with tarfile.open(path) as old, tarfile.open(fileobj=data, mode="w", format=tarfile.USTAR_FORMAT) as new:
        for entry in old:
            entry.mtime, entry.uid, entry.gid, entry.uname, entry.gname, entry.pax_headers = epoch, 0, 0, "", "", {}
            new.addfile(entry, old.extractfile(entry) if entry.isfile() else None)
    path.write_bytes(gzip.compress(data.getvalue(), 9, mtime=0))


def pack_npm(tree, target, names, epoch):
    """A tgz as npm packs one: what package.json lists, below `package`, with the licence."""
    here, engine, data = tree / "clients/javascript", tree / "clients/page/engine", io.BytesIO()
    files = {str(path.relative_to(here)): path for name in ("package.json", *names) for path in (here / name, *(here / name).rglob("*")) if path.is_file()}
    files |= {f"engine/{path.relative_to(engine)}": path for path in engine.rglob("*") if path.is_file()} | {"LICENSE": tree / "LICENSE"}
    with tarfile.open(fileobj=data, mode="w", format=tarfile.USTAR_FORMAT) as archive:
        for name, path in sorted(files.items()):
            text = path.read_bytes()
            if name == "src/engine.mjs":  # (in a checkout the engine lies beside the page)
                text = text.replace(b"../../page/engine/", b"../engine/")
            entry = tarfile.TarInfo(f"package/{name}")
            entry.size, entry.mtime, entry.mode = len(text), epoch, 0o644
            archive.addfile(entry, io.BytesIO(text))
    target.write_bytes(gzip.compress(data.getvalue(), 9, mtime=0))


@contextlib.contextmanager
def server(out, folder):
    """A server of the release's program; its address."""
    with tarfile.open(next(out.glob("*-x86_64.tar.gz"))) as archive:
        archive.extractall(folder)
    with socket.create_server(("127.0.0.1", 0)) as free:
        port = free.getsockname()[1]
    program = next(pathlib.Path(folder).glob("*/othello"))
    process = subprocess.Popen([program, "serve", "--sessions", "100", "--port", str(port), "--grain", "2"], stdout=subprocess.PIPE, text=True)
    try:
        if not process.stdout.readline().startswith("listening"):
            fail("the archive's program serves nothing")
        yield f"othello://127.0.0.1:{port}"
    finally:
        process.kill()
        process.wait()


WITHOUT_NET = ("unshare", "--net") if os.geteuid() == 0 else ()  # what installs has no network


def run(*words, where, **more):
    done = subprocess.run([*map(str, words)], cwd=where, capture_output=True, text=True, check=False, timeout=600, env=dict(os.environ, **more))
    if done.returncode:
        fail(f"{' '.join(map(str, words))}: {done.stdout[-2000:]}{done.stderr[-2000:]}")
    return done.stdout


def programs(readme, language):
    """The first program of a README, which needs no server, and the second, which asks one."""
    first, second, *_ = re.findall(rf"```{language}\n(.*?)```", readme, re.S)
    return first, second


def archived(out, name):
    """A file of the archive."""
    with tarfile.open(next(out.glob("*-x86_64.tar.gz"))) as archive:
        return next(archive.extractfile(entry).read().decode() for entry in archive if entry.name.endswith(f"/{name}"))


def check_programs(what, first, second, where, address):
    """Both commands say what they should: the first knows no server, no network, and no program but the package's own."""
    for words, around in (((*WITHOUT_NET, *first), {"COLUWEN_URL": "", "COLUWEN_OTHELLO": "", "PATH": "/usr/bin:/bin"}), (second, {"COLUWEN_URL": address})):
        said = run(*words, where=where, **around)
        if not re.match(SAID, said):
            fail(f"a program of {what} says {said!r}")


def try_pip(out, folder, address):
    """`pip install` of the wheel into a new environment, without an index; the programs of the README in the archive; a command."""
    wheel = min(out.glob("coluwen-*.whl"), key=lambda path: "none-any" in path.name)
    run(PYTHON, "-m", "venv", "--without-pip", folder / "venv", where=folder)
    run(*WITHOUT_NET, PYTHON, "-m", "pip", "--python", folder / "venv/bin/python", "install", "--quiet", "--no-index", wheel, where=folder)
    first, second = programs(archived(out, "clients/python/README.md"), "python")
    python = folder / "venv/bin/python"
    check_programs("Python's wheel", (python, "-c", first), (python, "-c", second), folder, address)
    program = run(python, "-c", "import coluwen.engine; print(*coluwen.engine.program_of())", where=folder, PATH="/usr/bin:/bin", COLUWEN_OTHELLO="").split(" ")[0]
    if not program.startswith(f"{folder}/venv/lib"):
        fail(f"the wheel's engine has the program {program!r}")
    said = run(folder / "venv/bin/coluwen-review", "--depth", "1", "f5d6", where=folder, COLUWEN_URL=address)
    if "f5" not in said:
        fail(f"the wheel's coluwen-review says {said!r}")
    print(f"pip: a first value by the wheel's own {pathlib.Path(program).name}")


def try_npm(out, folder, address):
    """`npm install` of the tgz in an empty folder; the programs of the README that was installed."""
    run(*WITHOUT_NET, "npm", "install", "--offline", "--no-audit", "--no-fund", "--cache", f"{folder}/npm", next(out.glob("*.tgz")), where=folder)
    for name, program in zip(("first.mjs", "second.mjs"), programs((folder / "node_modules/coluwen/README.md").read_text(), "js")):
        (folder / name).write_text(program)
    check_programs("npm's package", ("node", "first.mjs"), ("node", "second.mjs"), folder, address)


def try_maven(out, folder, address):
    """`mvn install:install-file` of the jars into an empty repository; the README's programs in a project that depends on them."""
    jar = next(path for path in out.glob("coluwen-*.jar") if not re.search("-(sources|javadoc)", path.name))
    version = jar.stem.removeprefix("coluwen-")
    for suffix in ("-sources.jar", "-javadoc.jar", ".pom"):
        if not (out / f"coluwen-{version}{suffix}").is_file():
            fail(f"there is no coluwen-{version}{suffix}")
    (folder / "settings.xml").write_text(SETTINGS)
    maven = (*WITHOUT_NET, "mvn", "-q", "-B", "-s", folder / "settings.xml", f"-Dmaven.repo.local={folder}/m2")
    run(*maven, "org.apache.maven.plugins:maven-install-plugin:install-file", f"-Dfile={jar}", f"-DpomFile={jar.with_suffix('.pom')}", f"-Dsources={out}/coluwen-{version}-sources.jar", f"-Djavadoc={out}/coluwen-{version}-javadoc.jar", where=folder)
    sources = folder / "src/main/java"
    sources.mkdir(parents=True)
    for name, program in zip(("First", "Second"), programs(archived(out, "clients/java/README.md"), "java")):
        (sources / f"{name}.java").write_text(program)
    (folder / "pom.xml").write_text(PROJECT.format(version))
    run(*maven, "compile", where=folder)
    installed = folder / f"m2/org/coluwen/coluwen/{version}/coluwen-{version}.jar"
    java = ("java", "-cp", f"target/classes:{installed}")
    check_programs("Maven's artifact", (*java, "First"), (*java, "Second"), folder, address)
    modules = run("java", "--module-path", installed, "--describe-module", "coluwen", where=folder)
    if f"coluwen@{version}" not in modules.splitlines()[0]:
        fail(f"the jar's module is {modules}")


def has_maven():
    """Whether Maven is here with the plugins that it takes without a registry."""
    return bool(shutil.which("mvn")) and all((MAVEN / f"org/apache/maven/plugins/maven-{name}-plugin").exists() for name in PLUGINS)


def try_all(out):
    """What was tried, and what wasn't."""
    has_pip = pathlib.Path(PYTHON).exists() and subprocess.run([PYTHON, "-m", "pip", "--version"], capture_output=True, check=False).returncode == 0
    trials = {"pip": (try_pip, has_pip), "npm": (try_npm, shutil.which("npm")), "maven": (try_maven, has_maven())}
    with tempfile.TemporaryDirectory() as tree, server(out, tree) as address:
        for name, (trial, is_here) in trials.items():
            if not is_here:
                print(f"{name}: skipped, since it isn't here")
                continue
            begun = time.monotonic()
            with tempfile.TemporaryDirectory() as folder:
                trial(out, pathlib.Path(folder), address)
            print(f"{name}: installed from the archive alone; its README's programs answer, the first without a server ({time.monotonic() - begun:.0f} s)")


def main():
    words = sys.argv[1:]
    if words[:1] == ["make"] and len(words) == 3:
        pathlib.Path(words[2]).mkdir(parents=True, exist_ok=True)
        make(pathlib.Path(words[1]).resolve(), pathlib.Path(words[2]).resolve(), int(os.environ.get("SOURCE_DATE_EPOCH") or time.time()))
    elif words[:1] == ["try"] and len(words) == 2:
        try_all(pathlib.Path(words[1]).resolve())
    else:
        sys.exit(__doc__)


if __name__ == "__main__":
    main()
