"""`python3 -m ljclient view --page`: the files of the page that has the program itself, and the headers by which a browser runs it."""
import http.client
import os
import pathlib
import re
import subprocess
import sys
from typing import Any, Dict, Iterator

import pytest
import web_sockets  # noqa: F401  first, since without aiohttp these tests are skipped

from support import SECONDS, TOP
from viewing import View, command

ISOLATING = {"Cross-Origin-Opener-Policy": "same-origin", "Cross-Origin-Embedder-Policy": "require-corp"}


@pytest.fixture(scope="module")
def folder(tmp_path_factory: pytest.TempPathFactory) -> pathlib.Path:
    """A page whose modules are no modules."""
    path = tmp_path_factory.mktemp("page")
    (path / "modules").mkdir()
    for kind in ("wasm64", "wasm32"):
        (path / "modules" / f"{kind}.wasm").write_bytes(b"\0asm\1\0\0\0")
    words = [sys.executable, str(TOP / "bin/page"), str(path / "site"), "--modules", str(path / "modules")]
    subprocess.run(words, check=True, timeout=SECONDS)
    (path / "site/notes.txt").write_text("not of the page")
    return path / "site"


@pytest.fixture(scope="module")
def view(folder: pathlib.Path) -> Iterator[Any]:
    with View("--page", folder) as one:
        yield one


def test_each_file_comes_with_the_headers(view: Any, folder: pathlib.Path) -> None:
    assert view.path == "/"
    kinds = {"": "text/html", "page.js": "text/javascript", "ljclient/worker.js": "text/javascript", "wasm64.wasm": "application/wasm"}
    for path, kind in kinds.items():
        status, headers, body = view.get(f"/{path}")
        assert (status, headers["Content-Type"].split(";")[0]) == (200, kind)
        assert ISOLATING.items() <= headers.items()
        assert body == (folder / (path or "index.html")).read_bytes()


def test_a_file_that_has_not_changed_is_not_sent_again(view: Any) -> None:
    _, headers, _ = view.get("/page.js")
    status, again, body = view.get("/page.js", **{"If-None-Match": headers["ETag"]})
    assert (status, body, again["ETag"]) == (304, b"", headers["ETag"])
    assert view.get("/page.js", **{"If-None-Match": '"another"'})[0] == 200


@pytest.mark.parametrize("path", ["/notes.txt", "/../page", "/%2e%2e/page", "/session", "/ljclient/", "/index.html/"])
def test_no_other_file_is_sent(view: Any, path: str) -> None:
    assert view.get(path)[0] == 404


def test_only_this_address_is_answered_and_only_by_get(view: Any) -> None:
    assert view.get("/", Host="example.org")[0] == 403
    connection = http.client.HTTPConnection("127.0.0.1", view.port, timeout=SECONDS)
    connection.request("POST", "/")
    assert connection.getresponse().status == 405
    connection.close()


def test_a_class_has_it_by_a_link_without_a_secret(folder: pathlib.Path) -> None:
    with View("--page", folder, "--listen", "127.0.0.1:0") as view:
        assert view.path == "/" and view.get("/", Host="teacher.example:8000")[0] == 200
        assert view.end() == (0, "")


def refused(*words: Any) -> Dict[str, Any]:
    done = subprocess.run(**command("--page", *words), stdout=subprocess.PIPE, stderr=subprocess.PIPE, timeout=SECONDS)
    return {"status": done.returncode, "told": done.stderr}


def test_a_folder_without_the_page_is_told(tmp_path: pathlib.Path, folder: pathlib.Path) -> None:
    advice = f"so it is not a page with the program; use `bin/page {tmp_path}` of the repository\n"
    assert refused(tmp_path) == {"status": 1, "told": f"view: cannot serve {tmp_path}: it has no index.html, {advice}"}
    for name in os.listdir(folder):
        if not name.startswith("wasm"):
            (tmp_path / name).symlink_to(folder / name)
    assert "it has no wasm64.wasm" in refused(tmp_path)["told"]


@pytest.mark.parametrize("words", [["atoms.xyz"], ["--temperature", "1"], ["127.0.0.1:4000", "ann"], ["--program", "ljserve"]])
def test_words_for_the_other_page_are_refused(folder: pathlib.Path, words: Any) -> None:
    told = refused(folder, *words)
    assert told["status"] == 2 and "--page must come alone, or with --port, --listen, --address, --embed and --no-browser" in told["told"]


def test_the_page_names_no_other_file(folder: pathlib.Path) -> None:
    """Of its own and of the client's: nothing is fetched from elsewhere, and each file that is named is there."""
    named = set(re.findall(r'(?:src|href)="([^"]+)"', (folder / "index.html").read_text()))
    for script in folder.glob("*.js"):
        named |= set(re.findall(r'(?:from|import) "\./([^"]+)"', script.read_text()))
    there = {path.relative_to(folder).as_posix() for path in folder.rglob("*")}
    assert named <= there
    assert {name for name in there if name.endswith((".js", ".css")) and "/" not in name} - named == {"headers.js"}
    policy = (folder / "index.html").read_text().split('Content-Security-Policy" content="')[1].split('"')[0]
    assert "default-src 'none'" in policy and "script-src 'self' 'wasm-unsafe-eval';" in policy and "http" not in policy
