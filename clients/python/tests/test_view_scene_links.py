"""Links that hold a scene, in Chromium: they open the same atoms at the same step bit for bit, hold no secret of their own, and are refused
where they do not fit."""
import json
import pathlib
import urllib.parse
from typing import Any, Dict, Iterator, List, Tuple

import pytest

from browsing import CHROMIUM, Browser
from ljclient import run
from ljclient.view import scenes
from support import PROGRAM, TOKEN, dimer, joined
from viewing import View

pytestmark = pytest.mark.skipif(not CHROMIUM, reason="Chromium is not installed")

READY = "document.getElementById('message')?.textContent === 'Press Play.'"
STEP = "Number(document.getElementById('step').textContent.replaceAll(',', ''))"
# What would be copied, where a test sees it.
CATCH = "navigator.clipboard.writeText = (text) => ((window.copied = text), Promise.resolve())"
MOTION = "import('./page.js').then(({ talk }) => talk.ask({ do: 'speeds' }))"
GOOD = {"scene": "A crystal that melts", "atoms": "108", "temperature": "1.5", "dt": "0.005", "step": "3"}
NO_SCENE: List[Tuple[str, Dict[str, Any]]] = [("", {}), ("#", {}), ("#lang=de", {}), (f"#ann.{'x' * 32}", {})]


@pytest.fixture(scope="module")
def browser() -> Iterator[Any]:
    with Browser(1280, 900) as one:
        yield one


@pytest.fixture(scope="module")
def view() -> Iterator[Any]:
    """A view that stays, whatever page is open."""
    with View() as one, one.page():
        yield one


@pytest.fixture
def page(browser: Any, view: Any) -> Iterator[Any]:
    browser.leave()
    browser.open(view.link)
    browser.wait_for(READY)
    browser.value(CATCH)
    yield browser
    assert browser.faults == []


def do(page: Any, *wishes: Any) -> None:
    """Asks the program for these things in turn, as the page's buttons do."""
    for wish in wishes:
        told = page.value(f"import('./page.js').then(({{ talk }}) => talk.ask({json.dumps(wish)})).then(({{ error }}) => error ?? '')")
        assert told == ""


def copied(page: Any) -> str:
    """The link that a press copies."""
    page.value("window.copied = ''; document.getElementById('link').click()")
    page.wait_for("window.copied")
    assert page.text("message").startswith("The link is copied. It opens these atoms at step ")
    return str(page.value("copied"))


def opened(page: Any, link: str) -> str:
    """The message of a page that a link has opened."""
    page.leave()
    page.open(link)
    page.wait_for("/^(This is step|The link cannot)/.test(document.getElementById('message')?.textContent)")
    return str(page.text("message"))


def words_of(link: str) -> Dict[str, str]:
    return dict(urllib.parse.parse_qsl(link.partition("#")[2]))


def fragment(**words: Any) -> str:
    return "#" + urllib.parse.urlencode({name: word for name, word in {**GOOD, **words}.items() if word is not None})


# Each way leads to a step and a direction: on, back, and before the start.
WAYS = [
    ([{"do": "frame", "steps": 37}], 37, "forward"),
    ([{"do": "frame", "steps": 30}, {"do": "reverse"}, {"do": "frame", "steps": 9}], 20, "backward"),
    ([{"do": "reverse"}, {"do": "frame", "steps": 4}], -5, "backward"),
    ([{"do": "reverse"}, {"do": "frame", "steps": 6}, {"do": "reverse"}, {"do": "frame", "steps": 2}], -4, "forward"),
]


@pytest.mark.parametrize("acts, step, direction", WAYS, ids=["on", "back", "before", "before-on"])
def test_a_link_opens_the_same_motion(page: Any, view: Any, acts: Any, step: int, direction: str) -> None:
    """Loaded with other numbers than at first. Without a mouse and a clipboard both pages ask for the places now and one step before."""
    do(page, {"do": "load", "scene": 0, "atoms": 108, "temperature": 0.7, "dt": 0.004}, *acts)
    page.value(
        "[...document.querySelectorAll('#charts input')].forEach((each) => each.checked === (each.value === 'of-speeds') || each.click())"
    )
    page.value("document.getElementById('axis').value = 'time'")
    about, motion, link = page.text("about"), page.value(MOTION), copied(page)
    assert link.startswith(f"{view.link}#") and "?" not in link
    words = words_of(link)
    assert (words["step"], words.get("time", "forward"), words["charts"], words["axis"]) == (str(step), direction, "speeds", "time")
    told = opened(page, link)
    assert told == f"This is step {step} of the link, bit for bit: each atom is where it was, and moves as it did."
    assert (page.value(STEP), page.text("direction"), page.text("about"), page.text("play")) == (step, direction, about, "Play")
    assert page.value(MOTION) == motion
    assert page.value("[...document.querySelectorAll('#charts input:checked')].map((each) => each.value)") == ["of-speeds"]
    assert page.value("document.getElementById('axis').value") == "time"
    assert copied_again(page) == link


def copied_again(page: Any) -> str:
    page.value(CATCH)
    return copied(page)


def test_it_is_what_the_same_commands_lead_to(page: Any, view: Any) -> None:
    """As the client in Python loads them, and advances."""
    scene = scenes.crystal(131072, 1.5, 1).changed({"atoms": 108, "temperature": 1.5, "dt": 0.005})
    with run(PROGRAM) as user:
        scene.begin(user, "x")
        user.ask("ADVANCE x 3")
        wanted = user.ask("DUMP x").lines[2:]
    assert opened(page, view.link + fragment()) == "This is step 3 of the link."
    assert page.value(MOTION)["now"].split("\n") == wanted


def test_other_atoms_of_the_name_are_noticed(page: Any, view: Any) -> None:
    told = opened(page, view.link + fragment(check="01234567"))
    assert told == "This is step 3, but not of the link's atoms: the link was made with other atoms of this name."
    assert page.value("document.getElementById('message').classList.contains('bad')")


def test_a_link_holds_no_tugs(page: Any) -> None:
    do(page, {"do": "frame", "steps": 5}, {"do": "save"}, {"do": "tug", "atom": 3, "by": [1000, 0, 0]})
    page.value("document.getElementById('link').click()")
    page.wait_for("document.getElementById('message').textContent.startsWith('A link holds neither tugs nor')")
    do(page, {"do": "restore"})
    assert words_of(copied(page))["step"] == "5"
    do(page, {"do": "tug", "atom": 3, "by": [1000, 0, 0]}, {"do": "restart"})
    assert words_of(copied(page))["step"] == "0"


def test_the_address_may_change_while_the_page_is_open(page: Any) -> None:
    """As where a link is put into the address of a page that is open."""
    page.value(f"location.hash = {json.dumps(fragment(step=2))}")
    page.wait_for("document.getElementById('message').textContent === 'This is step 2 of the link.'")
    assert page.text("about").startswith("A crystal that melts: 108 atoms")


def test_a_press_stops_on_the_way(page: Any, view: Any) -> None:
    page.value(f"location.hash = {json.dumps(fragment(step=1000000))}")
    page.wait_for("document.getElementById('play').textContent === 'Pause'")
    assert page.text("message") == "Going to step 1,000,000 of the link .."
    page.wait_for(f"{STEP} >= 100")
    page.value("document.getElementById('play').click()")
    page.wait_for("document.getElementById('play').textContent === 'Play' && document.getElementById('message').textContent === ''")
    assert page.value(STEP) < 1000000


def test_without_a_clipboard_the_link_is_selected(page: Any) -> None:
    page.value("navigator.clipboard.writeText = () => Promise.reject(new Error('no'))")
    page.value("document.getElementById('link').click()")
    page.wait_for("!document.getElementById('link-text').hidden && document.activeElement.id === 'link-text'")
    link = page.value("document.activeElement.value")
    assert page.value("getSelection().toString()") == link and words_of(link)["atoms"] == "256"
    assert page.text("message").startswith("The link to these atoms at step 0 is selected at the bottom of the page")


WRONG = {
    "#foo": "after the # it must have scene, atoms, temperature, dt, step, each once, and may have time, charts, axis, check, lang",
    fragment(dt=None): "after the # it must have scene",
    f"{fragment()}&step=4": "after the # it must have scene",
    fragment(token="x" * 32): "after the # it must have scene",
    fragment(step="1e3"): "step must be a whole number from -1000000 to 1000000, got 1e3",
    fragment(step=1000001): "step must be a whole number from -1000000 to 1000000, got 1000001",
    fragment(atoms=0): "atoms must be a whole number from 1 to 4096, got 0",
    fragment(temperature="-1"): "temperature must be a number from 0 on, got -1",
    fragment(dt="NaN"): "dt must be a number from 0 on, got NaN",
    fragment(time="sideways"): "time must be of forward, backward, got sideways",
    fragment(charts="distance.all"): "charts must be of distance, energy, second, speeds, radial, got all",
    fragment(axis="<b>"): "axis must be of steps, time, got <b>",
    fragment(check="xyz"): "check must have 8 digits of 0-9 and a-f, got xyz",
    fragment(scene="x" * 1000): "it must have at most 1000 letters after the #, got 1",
}
REFUSED = {
    fragment(scene="Atoms of another"): "this page has no atoms of the name Atoms of another",
    fragment(atoms=257): "atoms must be 4 n^3 for a crystal, with n from 3 to 10, got 257",
    fragment(dt="9"): "dt must be from 1.5e-05 to 0.0625, got 9",
}


def test_what_is_no_scene_is_told(page: Any) -> None:
    for hash, wanted in WRONG.items():
        told = page.value(f"import('./link.js').then(({{ sceneIn }}) => sceneIn({json.dumps(hash)}).fault())")
        assert told.startswith(wanted), hash
    for hash, found in NO_SCENE:
        assert page.value(f"import('./link.js').then(({{ sceneIn }}) => sceneIn({json.dumps(hash)}))") == found


@pytest.mark.parametrize("hash", ["#foo", *REFUSED])
def test_a_bad_link_leaves_the_first_scene(page: Any, view: Any, hash: str) -> None:
    told = opened(page, view.link + hash)
    assert told == f"The link cannot be opened: {REFUSED.get(hash, WRONG.get(hash))}. These are the atoms without it."
    assert (page.value(STEP), page.text("play")) == (0, "Play")
    assert page.text("about").startswith("A crystal that melts: 256 atoms")
    page.value("document.getElementById('one').click()")
    page.wait_for(f"{STEP} === 1")


def test_a_session_of_a_user_has_no_link(browser: Any, server: Any, tmp_path: pathlib.Path) -> None:
    """What is loaded for the page beside it has one, without the token."""
    with joined(server.port) as user:
        dimer(user)
    (tmp_path / "token").write_text(TOKEN)
    with View(f"127.0.0.1:{server.port}", "ann", "--token-file", tmp_path / "token", "--edge", 256, "--sigma", 1, "--h", 131072) as view:
        browser.leave()
        browser.open(view.link)
        browser.wait_for(f"{READY} && document.getElementById('about').textContent.startsWith('2 atoms')")
        assert browser.value("document.getElementById('link').checkVisibility()") is False
        do(browser, {"do": "load", "scene": 0})
        browser.wait_for("document.getElementById('link').checkVisibility()")
        browser.value(CATCH)
        assert TOKEN not in copied(browser)
        browser.leave()
