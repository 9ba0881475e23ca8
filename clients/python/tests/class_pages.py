"""The pages of a class that `tools/class` has begun, for its tests, without a browser."""
import contextlib
import http.client
import json
import pathlib
import ssl
from typing import Any, Dict, Iterator, List, NamedTuple, Tuple

from lessons import Lesson
from support import SECONDS, free_port
from web_sockets import WebSocket


class Answer(NamedTuple):
    """What a request is answered."""

    status: int
    headers: Dict[str, str]
    text: str

    @property
    def cookie(self) -> str:
        """The cookie that it gives, as a browser sends it back."""
        return self.headers.get("Set-Cookie", "").partition(";")[0]


class PagedLesson(Lesson):
    """A class with pages."""

    def __init__(self, folder: Any, *words: Any) -> None:
        self.page_port = free_port()
        super().__init__(folder, *words, "--page", f"127.0.0.1:{self.page_port}")

    @property
    def origin(self) -> str:
        return f"https://127.0.0.1:{self.page_port}"

    def ask(self, method: str, path: str, body: Any = None, source: str = "127.0.0.1", **headers: str) -> Answer:
        """What a request of a page is answered, from an address of this machine."""
        context = ssl.SSLContext(ssl.PROTOCOL_TLS_CLIENT)
        context.check_hostname, context.verify_mode = False, ssl.CERT_NONE
        way: Dict[str, Any] = {"timeout": SECONDS, "context": context, "source_address": (source, 0)}
        with contextlib.closing(http.client.HTTPSConnection("127.0.0.1", self.page_port, **way)) as connection:
            sent = {"Origin": self.origin, **headers} if method == "POST" else headers
            connection.request(
                method, path, None if body is None else json.dumps(body), {name: text for name, text in sent.items() if text}
            )
            answer = connection.getresponse()
            return Answer(answer.status, dict(answer.getheaders()), answer.read().decode())

    def enter(self, name: str, token: Any = None, **more: str) -> Answer:
        """What a page is answered that says a token: that of the slip if no other is said."""
        return self.ask("POST", "/in", {"name": name, "token": self.tokens()[name] if token is None else token}, **more)

    def cookie(self, name: str) -> str:
        """The cookie of a student's browser."""
        answer = self.enter(name)
        assert answer.status == 200, answer
        return answer.cookie

    def page(self, name: str) -> "StudentPage":
        return StudentPage(self, self.cookie(name))

    def wall_link(self) -> str:
        return (pathlib.Path(self.folder) / "class-kept" / "wall.txt").read_text().strip()

    def wall(self) -> "WebSocket":
        """The wall, as its link opens it."""
        cookie = self.ask("POST", "/wall", {"token": self.wall_link().partition("#")[2]}).cookie
        return WebSocket(f"wss://127.0.0.1:{self.page_port}/wall-session", {"Cookie": cookie, "Origin": self.origin})


class StudentPage(contextlib.AbstractContextManager["StudentPage"]):
    """A page of a student: what it asks and is answered, and what it is told unasked."""

    def __init__(self, lesson: PagedLesson, cookie: str, **headers: str) -> None:
        sent = {"Cookie": cookie, "Origin": lesson.origin, **headers}
        self.channel = WebSocket(f"wss://127.0.0.1:{lesson.page_port}/session", sent)
        self.news: List[Dict[str, Any]] = []
        self.waited: List[str] = []
        self.first = self.receive()

    def receive(self) -> Any:
        """The next answer."""
        while (message := self.channel.receive()) is not None:
            told = json.loads(message)
            if "news" in told:
                self.news.append(told["news"])
            elif "waits" in told:
                self.waited.append(told["waits"])
            else:
                return told
        return None

    def send(self, what: Any, **words: Any) -> None:
        self.channel.send(json.dumps({"do": what, **words}))

    def ask(self, what: Any, **words: Any) -> Any:
        self.send(what, **words)
        return self.receive()

    def types(self, *lines: str) -> List[str]:
        """The first lines of the replies to commands that are typed."""
        return [told[0] for told in self.ask("commands", commands=[[line, ""] for line in lines])["told"]]

    def next_news(self, word: str) -> Any:
        """What is told of something unasked next."""
        while not any(word in each for each in self.news):
            told = json.loads(self.channel.receive())
            if "news" in told:
                self.news.append(told["news"])
        at = next(at for at, each in enumerate(self.news) if word in each)
        found = self.news[at][word]
        self.news = self.news[at + 1 :]
        return found

    def close(self) -> None:
        self.channel.close()

    def __exit__(self, *_: Any) -> None:
        self.close()


@contextlib.contextmanager
def begun(folder: Any, *words: Any) -> Iterator[PagedLesson]:
    """A class with pages in a folder."""
    lesson = PagedLesson(folder, *words)
    try:
        yield lesson
    finally:
        lesson.close()


def link_of(slips: str, name: str) -> Tuple[str, str]:
    """The link on the slip of a student, up to the # and behind it."""
    (found,) = [line.strip() for line in slips.splitlines() if line.strip().startswith("https://") and f"#{name}." in line]
    before, _, behind = found.partition("#")
    return before, behind
