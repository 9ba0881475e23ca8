"""The link of the live view: which account can read it while a browser is opened, and what is refused to whom has it not."""
import contextlib
import os
import pathlib
import stat
import subprocess
import sys
import webbrowser
from typing import Any, Iterator
from unittest import mock

import pytest

from web_sockets import Refused  # noqa: F401  first, since without aiohttp these tests are skipped
from ljclient.view import links
from support import SECONDS, present, wait_until
from viewing import command

# A browser with windows, which notes which file it was told to open, and goes to the link there as soon as it is let.
BROWSER = """#!{python}
import pathlib, re, sys, time, urllib.parse, urllib.request
here = pathlib.Path(__file__).parent
file = pathlib.Path(urllib.parse.unquote(urllib.parse.urlsplit(sys.argv[1]).path))
(here / "told.part").write_text(sys.argv[1])
(here / "told.part").rename(here / "told")
while not (here / "go").exists():
    time.sleep(0.05)
if not file.exists():
    sys.exit()
link = re.search(r'url=(http[^"]+)"', file.read_text())[1]
with urllib.request.urlopen(link, timeout={seconds}) as page:
    (here / "page.part").write_bytes(page.read())
(here / "page.part").rename(here / "page")
"""


class Opened:
    """A view that has opened this browser, and its folder for files of a while."""

    def __init__(self, folder: pathlib.Path) -> None:
        self.folder = folder
        self.files = folder / "files"
        self.files.mkdir()
        browser = folder / "browser"
        browser.write_text(BROWSER.format(python=sys.executable, seconds=SECONDS))
        browser.chmod(0o755)
        words = command()
        words["args"].remove("--no-browser")
        words["env"].update(BROWSER=f"{browser} %s &", TMPDIR=str(self.files))
        self.child = subprocess.Popen(**words, stdout=subprocess.PIPE, stderr=subprocess.PIPE)
        self.link = present(self.child.stdout).readline().split(" ")[4]
        wait_until((folder / "told").exists)

    @property
    def path(self) -> pathlib.Path:
        """The file that the browser was told to open."""
        uri = (self.folder / "told").read_text()
        assert uri.startswith("file:///")
        return pathlib.Path(uri[len("file://") :])

    def end(self) -> Any:
        """Ends it, and lets its browser go on. Returns what it wrote to standard error."""
        if self.child.poll() is None:
            self.child.terminate()
        self.child.wait(SECONDS)
        (self.folder / "go").touch()
        return self.child.communicate(timeout=SECONDS)[1]


@pytest.fixture
def opened(tmp_path: pathlib.Path) -> Iterator[Any]:
    one = Opened(tmp_path)
    yield one
    assert one.end() == ""


def words_of_processes() -> str:
    """The command lines of all processes, as each account of this machine can read them."""
    told = []
    for path in pathlib.Path("/proc").glob("[0-9]*/cmdline"):
        with contextlib.suppress(OSError):
            told.append(path.read_bytes().decode(errors="replace"))
    return "\n".join(told)


def test_a_browser_is_handed_the_link_by_a_file_that_one_account_can_read(opened: Any) -> None:
    secret = opened.link.split("/")[3]
    assert len(secret) == 16
    assert secret not in words_of_processes()
    assert secret not in str(opened.path)
    assert [stat.S_IMODE(os.stat(path).st_mode) for path in (opened.path, opened.path.parent)] == [0o600, 0o700]
    assert opened.link in opened.path.read_text()


def test_the_file_is_removed_when_the_page_has_come(opened: Any) -> None:
    (opened.folder / "go").touch()
    wait_until((opened.folder / "page").exists)
    assert b'<canvas id="box"' in (opened.folder / "page").read_bytes()
    assert list(opened.files.iterdir()) == []
    assert opened.child.poll() is None


def test_the_file_is_removed_at_the_end(opened: Any) -> None:
    assert len(list(opened.files.iterdir())) == 1
    assert opened.end() == ""
    assert list(opened.files.iterdir()) == []


@pytest.mark.parametrize("browser, times", [(webbrowser.GenericBrowser("w3m"), 0), (webbrowser.BackgroundBrowser("firefox"), 1)])
def test_only_a_browser_with_windows_is_opened(browser: Any, times: int) -> None:
    link = links.LinkFile("http://127.0.0.1:1/")
    with mock.patch.object(webbrowser, "get", return_value=browser), mock.patch.object(type(browser), "open") as opens:
        link.open()
    link.remove()
    assert opens.call_count == times
