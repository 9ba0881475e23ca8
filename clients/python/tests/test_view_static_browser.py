"""The page that has the program itself, in Chromium, with an engine that asks a program beside it: names, contrasts, texts and links."""
import json
import re
from typing import Any, Iterator

import pytest

from accessibility import misnamed, too_pale
from browsing import CHROMIUM, Browser
from static_pages import served
from support import TOP
from test_view_scene_links import CATCH, MOTION, READY, copied, do, fragment, opened
from test_view_texts import BRACKETED, SHOWN, TABLES, UNITS_AND_FORMATS
from viewing import View

pytestmark = pytest.mark.skipif(not CHROMIUM, reason="Chromium is not installed")


@pytest.fixture(scope="module")
def site(tmp_path_factory: pytest.TempPathFactory) -> Iterator[Any]:
    with served(tmp_path_factory.mktemp("page")) as site:
        yield site


@pytest.fixture(scope="module")
def browser() -> Iterator[Any]:
    with Browser(1280, 900) as one:
        yield one


@pytest.fixture
def page(browser: Any, site: Any) -> Iterator[Any]:
    browser.leave()
    browser.ask("Network.clearBrowserCookies")
    browser.open(site.link)
    browser.wait_for(f"{READY} && !document.getElementById('send').disabled")
    yield browser
    assert browser.faults == []


def send(page: Any, commands: str) -> None:
    page.value(f"document.getElementById('commands').value = {json.dumps(commands)}; document.getElementById('send').click()")
    page.wait_for("/answered|beantwortet|⟦/.test(document.getElementById('state').textContent)")


@pytest.mark.parametrize("scheme", ["light", "dark"])
def test_controls_have_names_roles_and_contrast(page: Any, scheme: str) -> None:
    page.in_scheme(scheme)
    try:
        send(page, "LIST\nSHOW nothing 0\n")
        assert (misnamed(page), too_pale(page)) == ([], [])
    finally:
        page.in_scheme("light")


def test_all_that_is_shown_is_of_the_tables(page: Any) -> None:
    """But for the commands and replies, the name and the sum of the module, and the commit."""
    page.value(BRACKETED)
    send(page, "LIST\n")
    page.wait_for("document.getElementById('example').options[0].text.startsWith('⟦')")
    page.value("document.querySelectorAll('#replies, code').forEach((each) => each.replaceChildren())")
    left = {word for text in page.value(SHOWN) for word in re.findall(r"[A-Za-z]{2,}", re.sub(r"⟦.*⟧", "", text, flags=re.S))}
    assert left <= UNITS_AND_FORMATS


def test_it_speaks_german(page: Any, site: Any) -> None:
    page.open(f"{site.link}?lang=de")
    for name, key in (("state", "programRuns"), ("message", "pressPlay")):
        page.wait_for(f"document.getElementById('{name}')?.textContent === {json.dumps(TABLES['de'][key][0])}")
    titles = page.value("[...document.getElementById('scene').options].map(({ text }) => text)")
    assert titles == [TABLES["de"][key][0] for key in ("crystalMelts", "smallCrystalMelts", "gas")]
    send(page, "LIST\n")
    assert page.text("state").startswith("1 Befehl in ") and "OK LIST 1" in page.text("replies")


def test_a_link_of_the_view_opens_the_same_motion_here(page: Any, site: Any) -> None:
    with View() as view:
        page.open(view.link)
        page.wait_for(READY)
        page.value(CATCH)
        do(page, {"do": "load", "scene": 0, "atoms": 108, "temperature": 0.9, "dt": 0.005}, {"do": "frame", "steps": 12}, {"do": "reverse"})
        motion, link = page.value(MOTION), copied(page)
        told = opened(page, link.replace(view.link, site.link))
    assert told.startswith("This is step 11 of the link, bit for bit: ")
    assert page.value(MOTION) == motion
    page.value(CATCH)
    assert copied(page).partition("#")[2] == link.partition("#")[2]


@pytest.mark.parametrize("title, atoms", [("A small crystal that melts", 108), ("A gas of 32 atoms", 32)])
def test_each_scene_has_its_link(page: Any, title: str, atoms: int) -> None:
    scene = {"A small crystal that melts": 1, "A gas of 32 atoms": 2}[title]
    do(page, {"do": "load", "scene": scene}, {"do": "frame", "steps": 7})
    page.value(CATCH)
    motion, link = page.value(MOTION), copied(page)
    assert opened(page, link).startswith("This is step 7 of the link, bit for bit: ")
    assert page.value(MOTION) == motion and page.text("about").startswith(f"{atoms} atoms")


def test_typed_commands_are_in_no_link(page: Any) -> None:
    send(page, "TUG view-1 0 5 0 0\n")
    page.value("document.getElementById('link').click()")
    page.wait_for("document.getElementById('message').textContent.startsWith('A link holds neither tugs nor commands')")


def test_a_bad_link_leaves_the_first_scene(page: Any, site: Any) -> None:
    told = opened(page, site.link + fragment(atoms=257))
    assert told.startswith("The link cannot be opened: atoms must be 4 n^3 for a crystal, with n from 3 to 10, got 257.")
    assert page.text("about").startswith("256 atoms") and page.text("step") == "0"


def test_only_the_transport_stands_in_place_of_a_file_of_the_view() -> None:
    ours, shared = ({path.name for path in (TOP / folder).iterdir()} for folder in ("packaging/page", "clients/python/ljclient/view/page"))
    assert ours & shared == {"transport.js"}
