"""Whom the page's server answers: browsers that name this host as they may, and pages of this host alone."""
from __future__ import annotations

import types
from typing import Any

import pytest
from coluwen.page.files import Site, names_of
from coluwen.page.web import Fault


def asked(method: str = "GET", **headers: str) -> Any:
    return types.SimpleNamespace(method=method, headers={name.replace("_", "-"): text for name, text in headers.items()})


@pytest.mark.parametrize("request_of, code", [
    (asked(host="127.0.0.1:8047"), ""), (asked(host="localhost:8047", origin="http://localhost:8047"), ""), (asked("POST", host="board:8047", sec_fetch_site="same-origin"), ""),
    (asked(host="evil.example"), "name"), (asked(), "name"), (asked(host="127.0.0.1:8047", origin="http://evil.example"), "origin"), (asked(host="127.0.0.1:8047", origin="null"), "origin"),
    (asked("POST", host="127.0.0.1:8047", sec_fetch_site="cross-site"), "origin"),
])  # fmt: skip
def test_who_is_answered(request_of: Any, code: str) -> None:
    site = Site.__new__(Site)
    site.port, site.is_named = 8047, lambda host, port: names_of(host, port, {"localhost", "board"})
    if not code:
        site.check(request_of)
        return
    with pytest.raises(Fault) as fault:
        site.check(request_of)
    assert fault.value.status in (400, 403, 421) and fault.value.code == code
