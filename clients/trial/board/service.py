"""The board's service by HTTP: its policy, whom it answers, its limits, what it refuses."""
import json
import re
import socket
import time
import urllib.error
import urllib.request

from coluwen.board import Position
from stand import OPENING, analysed, asked, check, chosen, page, stage, until


def place_of(address):
    host, port = address.split("//")[1].strip("/").split(":")
    return host, int(port)


def spoken(address, data, seconds=20):
    """What is answered to bytes, to the connection's end or to that many seconds."""
    with socket.create_connection(place_of(address)) as stream:
        stream.settimeout(seconds)
        stream.sendall(data)
        found = b""
        try:
            while block := stream.recv(65536):
                found += block
        except (TimeoutError, ConnectionError):
            pass
        return found.decode("latin-1")


def head(address):
    """The status and headers of an answer, whatever its body is."""
    try:
        with urllib.request.urlopen(address, timeout=60) as answer:
            return answer.status, answer.headers
    except urllib.error.HTTPError as fault:
        return fault.code, fault.headers


def try_policy(address):
    """Each answer has the policy; files are whole; a browser that has a file isn't sent it again."""
    for path in ("", "js/main.js", "style.css", "engine/page64.wasm", "engine/worker.js", "about.json", "no/such"):
        status, headers = head(address + path)
        policy = headers["Content-Security-Policy"]
        check("default-src 'none'" in policy and "script-src 'self' 'wasm-unsafe-eval';" in policy and policy.count("unsafe") == 1 and "frame-ancestors 'none'" in policy, f"{path}: the policy {policy}")
        check(headers["X-Content-Type-Options"] == "nosniff" and headers["Referrer-Policy"] == "no-referrer", f"{path}: its headers")
        check(status == (404 if path == "no/such" else 200), f"{path}: {status}")
    text = asked(address)[1]
    check(not re.search(r"<script(?![^>]*src=)|\sstyle=|(?:src|href)=.(?:https?:)?//|\son\w+=", text), "the page has scripts or styles within, or foreign addresses")
    tag = asked(address + "style.css")[2]["ETag"]
    check(asked(address + "style.css", headers={"If-None-Match": tag})[0] == 304, "a file is sent again")
    for path in ("../web.py", "%2e%2e/web.py", "js/../../web.py", "static/index.html", "js/", "//etc/passwd", "js/main.js%00", "/[", "class/%00", "?name=%00&x=[".replace("?", "none?")):
        check(" 404 " in spoken(address, f"GET /{path} HTTP/1.1\r\nHost: {address.split('//')[1].strip('/')}\r\nConnection: close\r\n\r\n".encode()).split("\r\n")[0] + " ", f"{path} is given")


def try_names(address):
    """No foreign page reads this one or asks it."""
    own = address.split(":")[-1].strip("/")
    for name, code in ((f"elsewhere:{own}", 403), (f"localhost:{own}", 200), (f"10.1.2.3:{own}", 200), ("127.0.0.1:1", 403), ("", 403), (f"[::1]:{own}", 200), ("a@b", 403)):
        check(asked(address, headers={"Host": name})[0] == code, f"the name {name} isn't answered by {code}")
    question = {"position": OPENING.text, "depth": 4}
    for headers in ({"Origin": "http://elsewhere"}, {"Origin": "null"}, {"Sec-Fetch-Site": "cross-site"}, {"Sec-Fetch-Site": "same-site"}):
        check(asked(address + "analyse", question, headers=headers)[0] == 403, f"a foreign page asks: {headers}")
    check(asked(address + "analyse", question, headers={"Origin": address.strip("/")})[0] == 200, "its own page can't ask")
    check(asked(address + "analyse", json.dumps(question).encode(), headers={"Content-Type": "text/plain"})[0] == 415, "a form of elsewhere asks")


def try_refusals(address):
    """What is no question is refused by a status, and nothing is asked for it."""
    legal = {"position": OPENING.text, "depth": 4, "exact": []}
    for change in ({"position": "X" * 66}, {"position": ""}, {"position": None}, {"position": "<b>" * 22}, {"position": OPENING.text + "X"}, {"depth": 0}, {"depth": -1}, {"depth": 13}, {"depth": 60},
                   {"depth": "4"}, {"depth": True}, {"depth": 4.5}, {"depth": 10**30}, {"exact": ["a1"]}, {"exact": "some"}, {"exact": [[]]}, {"exact": {"d3": 1}}, {"steps": 1}, {"steps": None}):  # fmt: skip
        status, text, _ = asked(address + "analyse", legal | change)
        check(status == 400 and "text" in json.loads(text), f"{change}: {status} {text[:80]}")
    for body in (b"", b"{", b"[]", b"null", b"1", b'"x"', b"\xff\xfe", b"[" * 10000, b'{"position": NaN}', b'{"depth": 4}'):
        check(asked(address + "analyse", body)[0] == 400, f"{body[:20]} is a question")
    for method, path in (("GET", "analyse"), ("PUT", "analyse"), ("DELETE", ""), ("POST", ""), ("POST", "about.json"), ("PUT", "class"), ("GET", "class")):
        check(asked(address + path, method=method)[0] == 405, f"{method} /{path}")
    check(asked(address + "class/nosuchroom")[0] == 404 and asked(address + "class/" + "a" * 33)[0] == 404 and asked(address + "class/A%2F")[0] == 404, "a class that isn't there")
    told = spoken(address, f"GET /review?a=%0a\rSet-Cookie:b HTTP/1.1\r\nHost: {address.split('//')[1].strip('/')}\r\nConnection: close\r\n\r\n".encode())
    check("Set-Cookie" not in re.findall(r"^([\w-]+):", told, re.M), f"a header by a query: {told[:200]}")
    finished = "X" * 64 + " O"
    (step,) = [line for line in analysed(address, finished, 4) if line["kind"] == "step"]
    check(step["score"] == {"sign": "=", "discs": -64, "empty": 0}, f"a finished game: {step}")
    lone = Position("XO" + "-" * 62, "O")  # white has no move, and black has
    (step,) = [line for line in analysed(address, lone, 4, "all") if line["kind"] == "step"][-1:]
    check(step["best"] == "pass" and step["score"] == {"sign": "=", "discs": -64, "empty": 61}, f"a pass: {step}")


def try_sizes(address):
    """Heads, bodies and times are limited."""
    host = address.split("//")[1].strip("/")
    check("431" in spoken(address, b"GET / HTTP/1.1\r\n" + b"X: " + b"a" * 40000)[:20], "a head without end is read")
    for head, status in ((f"POST /analyse HTTP/1.1\r\nHost: {host}\r\nContent-Length: 65537\r\n\r\n", 413), (f"PUT /analyse HTTP/1.1\r\nHost: {host}\r\nContent-Length: 1\r\n\r\n", 413),
                         (f"POST /analyse HTTP/1.1\r\nHost: {host}\r\nTransfer-Encoding: chunked\r\n\r\n", 411), (f"POST /analyse HTTP/1.1\r\nHost: {host}\r\nContent-Length: -1\r\n\r\n", 400),
                         (f"POST /analyse HTTP/1.1\r\nHost: {host}\r\nContent-Length: 1\r\nContent-Length: 2\r\n\r\n", 400), (f"GET / HTTP/1.1\r\nHost: {host}\r\nHost: b\r\n\r\n", 400),
                         (f"GET / HTTP/1.1\r\nHost : {host}\r\n\r\n", 400), ("GET http://x/ HTTP/1.1\r\n\r\n", 400), ("GET / SMTP\r\n\r\n", 400), ("\r\n\r\n", 400)):  # fmt: skip
        check(f" {status} " in spoken(address, head.encode())[:16], f"{head[:60]!r} isn't answered by {status}")
    begun = time.monotonic()
    spoken(address, b"GET / HTTP/1.1\r\nHost: ", 90)
    check(8 < time.monotonic() - begun < 60, f"half a head is kept for {time.monotonic() - begun:.0f} s")
    begun = time.monotonic()
    check("200" in spoken(address, f"GET /about.json HTTP/1.1\r\nHost: {host}\r\n\r\n".encode(), 90)[:16] and 15 < time.monotonic() - begun < 60, "a connection that says nothing more is kept")


def try_connections(port):
    """Only so many connections, and so many of one address, whose others go on."""
    with page(port, "--connections", 20, "--per-address", 12) as (_, address):
        host, own = place_of(address)
        idle = [socket.create_connection((host, own)) for _ in range(12)]
        time.sleep(0.3)
        check("503" in spoken(address, b"GET / HTTP/1.1\r\n\r\n")[:16], "a thirteenth connection of one address is served")
        elsewhere = socket.create_connection((host, own), source_address=("127.0.0.9", 0))
        elsewhere.sendall(f"GET /about.json HTTP/1.1\r\nHost: {host}:{own}\r\nConnection: close\r\n\r\n".encode())
        check(b"200" in elsewhere.recv(65536)[:16], "another address isn't served")
        for one in [*idle, elsewhere]:
            one.close()
        until("room again", lambda: "200" in spoken(address, f"GET /about.json HTTP/1.1\r\nHost: {host}:{own}\r\nConnection: close\r\n\r\n".encode())[:16])
        several = [socket.create_connection((host, own), source_address=(f"127.0.0.{10 + number}", 0)) for number in range(20)]
        time.sleep(0.3)
        check("503" in spoken(address, b"GET / HTTP/1.1\r\n\r\n")[:16], "a twenty-first connection is served")
        for one in several:
            one.close()


NGINX = """
user root; pid {folder}/nginx.pid; error_log {folder}/nginx.log; daemon off; worker_processes 1;
events {{ worker_connections 256; }}
http {{
  types {{ text/html html; text/css css; text/javascript js; application/json json; image/svg+xml svg; application/wasm wasm; }}
  access_log off; client_body_temp_path {folder}/body; proxy_temp_path {folder}/proxy;
  fastcgi_temp_path {folder}/fastcgi; uwsgi_temp_path {folder}/uwsgi; scgi_temp_path {folder}/scgi;
  server {{
    listen 127.0.0.1:{port};
    location /board/ {{ alias {files}/; }}
    location ~ ^/board/(analyse|about[.]json|class)(/.*)?$ {{
      rewrite ^/board(/.*)$ $1 break; proxy_pass http://127.0.0.1:{page}; proxy_http_version 1.1; proxy_buffering off; proxy_set_header Host $http_host;
      client_max_body_size 8m;
    }}
  }}
}}
"""


def try_classes(address):
    """What a class refuses, and how many one address opens."""
    check(asked(f"{address}class", {"state": "x" * 70000})[0] == 413 and asked(f"{address}class", {"state": 5})[0] == 400, "any state is shown")
    room = json.loads(asked(f"{address}class", {"state": "#"})[1])["room"]
    for hand in ({}, {"pupil": "", "name": "a", "state": "#"}, {"pupil": "a", "name": "b" * 41, "state": "#"}, {"pupil": "a", "name": "b", "state": 5}, [], {"pupil": 1, "name": "a", "state": "#"}):
        check(asked(f"{address}class/{room}/pupil", hand)[0] == 400, f"any hand is raised: {hand}")
    check(asked(f"{address}class/{room}/pupil", {"pupil": "a", "name": "b", "state": "#"})[0] == 200 and asked(f"{address}class/{room}/other")[0] == 404, "no hand is raised")
    for _ in range(9):
        check(asked(f"{address}class", {"state": "#"})[0] == 200, "a class isn't opened")
    check(asked(f"{address}class", {"state": "#"})[0] == 429, "one address opens any number of classes")


def try_all(service, only=""):
    for trial in chosen(only, try_policy, try_names, try_refusals, try_sizes):
        trial(service)
    with stage.server("--sessions", "20", "--grain", "4") as (_, port):
        for _ in chosen(only, try_connections):
            try_connections(port)
        for _ in chosen(only, try_classes):
            with page(port) as (_, its):
                try_classes(its)
    print("board: its policy, names, refusals and limits; connections and classes are limited")
