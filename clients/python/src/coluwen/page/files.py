"""The page's files, and to whom anything is given: browsers that name this host as they may, and pages of this host alone."""

import hashlib
import ipaddress
import pathlib
import urllib.parse
from collections.abc import Callable, Iterable

from .service import Service
from .web import Answer, Fault, Request

KINDS = {"html": "text/html", "css": "text/css", "js": "text/javascript", "json": "application/json", "svg": "image/svg+xml", "wasm": "application/wasm"}

OPEN = ("/analyse", "/about.json", "/openapi.json")  # what a page of elsewhere may ask, where its origin is named
PREFLIGHT = {"Access-Control-Allow-Methods": "GET, POST", "Access-Control-Allow-Headers": "accept, authorization, content-type", "Access-Control-Max-Age": "600"}
QUERY = "!$&'()*+,;=:@/?%-._~"  # the signs of a query that stay as they are


def texts() -> dict[str, tuple[str, bytes]]:
    """The page's files by their paths, with their kinds."""
    here = pathlib.Path(__file__).resolve()
    top = here.parent / "static"
    if not top.is_dir():
        top = here.parents[4] / "page"  # of a checkout
    found = sorted(one for one in top.rglob("*") if one.suffix[1:] in KINDS and one.name != "about.json")
    kinds = {suffix: kind if suffix == "wasm" else f"{kind}; charset=utf-8" for suffix, kind in KINDS.items()}
    return {f"/{one.relative_to(top).as_posix()}": (kinds[one.suffix[1:]], one.read_bytes()) for one in found}


def names_of(host: str, port: int, names: Iterable[str]) -> bool:
    """Whether a browser names this host as it may: by an address, which no foreign page can be given for its name, or by a name. Behind
    another web server the port is that one's."""
    name, _, rest = host.rpartition(":") if ":" in host and not host.endswith("]") else (host, "", "")
    if rest and not (rest.isascii() and rest.isdigit()):
        return False
    if name in names:
        return True
    try:
        return bool(ipaddress.ip_address(name.strip("[]"))) and rest in (str(port), "")
    except ValueError:
        return False


class Site:
    """All that a browser may ask: the files and the service."""

    def __init__(self, service: Service, is_named: Callable[..., bool], origins: Iterable[str] = ()):
        self.service, self.is_named, self.port = service, is_named, 0
        self.origins = frozenset(origins)  # of pages of elsewhere that may ask values; `*` is any
        self.files = texts()
        self.files["/"] = self.files["/index.html"]
        self.tags = {path: f'"{hashlib.sha256(body).hexdigest()[:20]}"' for path, (_, body) in self.files.items()}

    async def answer(self, request: Request) -> Answer:
        origin = request.headers.get("origin", "")
        if not (request.path in OPEN and {origin, "*"} & self.origins and origin):
            self.check(request)
            return await self.own(request)
        headers = {"Access-Control-Allow-Origin": origin, "Vary": "Origin", "Cross-Origin-Resource-Policy": "cross-origin"}
        try:
            if not self.is_named(request.headers.get("host", ""), self.port):
                raise Fault(403, "name", "this host isn't known by that name")
            if request.method == "OPTIONS":
                return Answer(204, headers={**headers, **PREFLIGHT})
            answer = await self.own(request)
        except Fault as fault:
            fault.headers |= headers
            raise
        answer.headers |= headers
        return answer

    async def own(self, request: Request) -> Answer:
        if request.path in self.files:
            return self.file(request)
        if request.path == "/review":  # the older page's address of a game
            _, _, query = request.target.partition("?")
            return Answer(302, headers={"Location": f"/?{urllib.parse.quote(query, safe=QUERY)}" if query else "/"})
        answer = await self.service.answer(request)
        if answer is None:
            raise Fault(404, "path", "there is no such page")
        return answer

    def check(self, request: Request) -> None:
        """Refuses what a page of elsewhere asks."""
        host, origin = request.headers.get("host", ""), request.headers.get("origin")
        if not self.is_named(host, self.port):
            raise Fault(403, "name", "this host isn't known by that name")
        if origin is not None and origin.partition("://")[2] != host:
            raise Fault(403, "origin", "a page of elsewhere asks nothing here")
        if request.method != "GET" and request.headers.get("sec-fetch-site", "same-origin") != "same-origin":
            raise Fault(403, "origin", "a page of elsewhere asks nothing here")

    def file(self, request: Request) -> Answer:
        if request.method not in ("GET", "HEAD"):
            raise Fault(405, "method", "files are read")
        kind, body = self.files[request.path]
        headers = {"ETag": self.tags[request.path], "Cache-Control": "no-cache"}
        if request.headers.get("if-none-match") == headers["ETag"]:
            return Answer(304, kind, headers=headers)
        return Answer(200, kind, body, headers=headers)
