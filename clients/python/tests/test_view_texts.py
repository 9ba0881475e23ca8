"""The texts of the page in its languages: the tables fit each other, no text stands elsewhere, and a language is chosen and remembered."""
import json
import pathlib
import re
from typing import Any, Dict, Iterator, List, Set

import pytest

from browsing import CHROMIUM, Browser
from support import TOP
from viewing import View

FOLDER = TOP / "clients/python/ljclient/view/page"
PANEL = TOP / "packaging/page"
LANGUAGES = ["en", "de", "fr", "es"]
OF_THE_STATIC_PAGE = [PANEL / name for name in ("panel.js", "typed.js", "examples.js")]
SCRIPTS = [path for path in sorted(FOLDER.glob("*.js")) if not path.name.startswith("texts-")] + OF_THE_STATIC_PAGE
PAGES = [FOLDER / "page.html", PANEL / "parts.html"]
QUOTED = r'("(?:[^"\\]|\\.)*")'
ENTRY = re.compile(rf"^  (\w+): (?:{QUOTED}|\{{\s*(one): {QUOTED},\s*other: {QUOTED},?\s*\}}),$", re.M)
# Keys that are put together of parts.
MADE = re.compile(r"(same|some)(Start|Saved)(Turned)?|\w+ByKey")
STRING = re.compile(r'"((?:[^"\\\n]|\\.)*)"|`((?:[^`\\]|\\.)*)`')
# What has letters, and is no text: selectors, colours, fonts, what a file holds, and what only who writes a script reads.
NO_TEXT = re.compile(
    r"[#.\[\]]|rgb\(|px |^(number|light|dark)$|^message |^session (\$\{|$)|prefers-|^no text has|max-age|^(LOAD|SHOW|ADVANCE|REVERSE|LIST) "
)
UNITS_AND_FORMATS = {"CSV", "SHA", "ps", "fs"}
# By these titles of the program the page finds its own.
TITLES = ("crystal", "crystalMelts", "smallCrystalMelts", "gas")
# The longest words that parts of the page can have.
LONGEST = """import('./texts.js').then(({ text }) => {
  document.getElementById('restore').textContent = text('restoreStep', { step: '123,456' });
  [document.getElementById('step').textContent, document.getElementById('clock').textContent] = ['123,456', '1,234.5 ps'];
})"""
# All texts that are shown, and names and titles, of what a person reads. The choice of a language has each in its own.
SHOWN = """(() => {
  const found = [document.title];
  const walker = document.createTreeWalker(document.documentElement, NodeFilter.SHOW_TEXT);
  while (walker.nextNode()) if (!walker.currentNode.parentElement.closest('script, style, #language')) found.push(walker.currentNode.data);
  const names = ['aria-label', 'title', 'aria-description', 'aria-valuetext', 'alt', 'placeholder'];
  for (const element of document.querySelectorAll('*')) found.push(...names.map((name) => element.getAttribute(name) ?? ''));
  return found;
})()"""
# Has each text of English stand between brackets, as a language of its own.
BRACKETED = """Promise.all([import('./texts.js'), import('./texts-en.js')]).then(([script, { texts }]) => {
  const within = (text) => `⟦${text}⟧`;
  const both = (entry) => typeof entry === 'string' ? within(entry) : { one: within(entry.one), other: within(entry.other) };
  script.addTexts({ fr: Object.fromEntries(Object.entries(texts).map(([key, entry]) => [key, both(entry)])) });
  script.choose('fr');
})"""


def table(language: str) -> Dict[str, List[str]]:
    """The texts of a language by their keys, each with its forms."""
    text = (FOLDER / f"texts-{language}.js").read_text(encoding="utf-8")
    found: Dict[str, List[str]] = {}
    for key, whole, _, one, other in ENTRY.findall(text):
        assert key not in found, f"{language}: {key} stands twice"
        found[key] = [json.loads(form) for form in ([whole] if whole else [one, other])]
    assert len(found) == len(re.findall(r"^  \w+: ", text, re.M))
    return found


TABLES = {language: table(language) for language in LANGUAGES}


def code(path: pathlib.Path) -> str:
    """A file without its comments."""
    return re.sub(r"(?m)^ *//.*$|\s// .*$", "", path.read_text(encoding="utf-8"))


def placeholders(form: str) -> Set[str]:
    return set(re.findall(r"\{(\w+)\}", form))


@pytest.mark.parametrize("language", LANGUAGES)
def test_all_languages_have_the_same_texts(language: str) -> None:
    assert list(TABLES[language]) == list(TABLES["en"])
    for key, forms in TABLES[language].items():
        english = TABLES["en"][key]
        assert all(form.strip() for form in forms) and len(forms) == len(english), key
        assert [placeholders(form) for form in forms] == [placeholders(form) for form in english], key
        numbers = [re.findall(r"(?<![A-Za-z])\d+|[σετ]", form) for form in (forms[-1], english[-1])]
        assert sorted(numbers[0]) == sorted(numbers[1]), key


@pytest.mark.parametrize("language", LANGUAGES[1:])
def test_a_language_has_texts_of_its_own(language: str) -> None:
    """Most of them: some words are the same."""
    same = [key for key, forms in TABLES[language].items() if forms == TABLES["en"][key]]
    assert len(same) < len(TABLES["en"]) / 8, same


def test_each_text_is_used_and_each_that_is_used_is_there() -> None:
    sources = "\n".join(map(code, [*SCRIPTS, *PAGES]))
    quoted = set(re.findall(r'"(\w+)"', sources)) | set(re.findall(r"(?m)^  (example\w+):", sources))
    named = set(re.findall(r'data-(?:text|name)="(\w+)"|\btext\("(\w+)"', sources))
    assert {one or other for one, other in named} - set(TABLES["en"]) == set()
    unused = {key for key in TABLES["en"] if key not in quoted and not MADE.fullmatch(key)} - {"nameOfLanguage"}
    assert unused == set()


def test_no_text_stands_in_a_page() -> None:
    for path in PAGES:
        text = re.sub(r"<!--.*?-->|<script.*?</script>|&\w+;|@COMMIT@", "", path.read_text(encoding="utf-8"), flags=re.S)
        words = {word for part in re.findall(r">([^<]*)<", text) for word in re.findall(r"[A-Za-z]{2,}", part)}
        assert words <= UNITS_AND_FORMATS, path
        assert re.findall(r'(?:aria-label|title|alt|placeholder)="', text) == [], path


@pytest.mark.parametrize("path", SCRIPTS, ids=lambda path: str(path.name))
def test_no_text_stands_in_a_script(path: pathlib.Path) -> None:
    strings = [one or other for one, other in STRING.findall(code(path))]
    titles = [TABLES["en"][key][0] for key in TITLES]
    texts = [re.sub(r"\$\{[^{}]*\}", "", each) for each in strings if not NO_TEXT.search(each) and each not in titles]
    assert [each for each in texts if re.search(r"[A-Za-z]{2,} +[A-Za-z]{2,}", each)] == []


@pytest.fixture(scope="module")
def browser() -> Iterator[Any]:
    if not CHROMIUM:
        pytest.skip("Chromium is not installed")
    with Browser(1280, 900) as one:
        yield one


@pytest.fixture(scope="module")
def view() -> Iterator[Any]:
    """A view that stays, whatever page is open."""
    with View() as one, one.page():
        yield one


@pytest.fixture
def page(browser: Any, view: Any) -> Iterator[Any]:
    """A browser that has chosen no language."""
    browser.leave()
    browser.ask("Network.clearBrowserCookies")
    yield browser
    browser.ask("Emulation.setUserAgentOverride", userAgent="", acceptLanguage="en")
    assert browser.faults == []


def begun(page: Any, link: str, language: str) -> None:
    """Opens a page, and waits until it has its atoms, in a language."""
    page.open(link)
    page.wait_for(f"document.getElementById('message')?.textContent === {json.dumps(TABLES[language]['pressPlay'][0])}")
    assert page.value("document.documentElement.lang") == language
    assert (page.value("document.title"), page.text("play")) == (TABLES[language]["title"][0], TABLES[language]["play"][0])


@pytest.mark.parametrize("language", LANGUAGES)
def test_a_link_says_the_language_and_numbers_stay_the_same(page: Any, view: Any, language: str) -> None:
    begun(page, f"{view.link}?lang={language}", language)
    assert re.findall(r"[\d.]+|[στ]", page.text("about")) == ["256", "6.72", "σ", "0.0055", "τ"]
    assert page.text("temperature") == "1.50 ε/k"
    page.value("document.getElementById('numbers').open = true; import('./page.js').then(({ talk }) => talk.ask({ do: 'reverse' }))")
    page.value(LONGEST)
    try:
        for width in (320, 390, 850, 1280):
            page.ask("Emulation.setDeviceMetricsOverride", width=width, height=800, deviceScaleFactor=1, mobile=False)
            page.wait_for(f"innerWidth === {width}")
            assert page.value("document.documentElement.scrollWidth") <= width
    finally:
        page.ask("Emulation.clearDeviceMetricsOverride")


def test_a_fragment_says_the_language(page: Any, view: Any) -> None:
    begun(page, f"{view.link}#lang=es", "es")


@pytest.mark.parametrize("asked, language", [("de-CH,en", "de"), ("nl,fr;q=0.8,de;q=0.5", "fr"), ("ja", "en")])
def test_the_browser_says_the_language(page: Any, view: Any, asked: str, language: str) -> None:
    page.ask("Emulation.setUserAgentOverride", userAgent="Chromium", acceptLanguage=asked)
    begun(page, view.link, language)


def test_one_that_is_unknown_is_passed_over(page: Any, view: Any) -> None:
    begun(page, f"{view.link}?lang=xx", "en")


def test_a_language_is_chosen_and_remembered(page: Any, view: Any) -> None:
    """At another port too, as each view has."""
    begun(page, view.link, "en")
    page.value("document.getElementById('exact').click()")
    page.wait_for("document.getElementById('message').textContent.startsWith('256 of 256, bit for bit')")
    page.value("(select => { select.value = 'de'; select.dispatchEvent(new Event('change')); })(document.getElementById('language'))")
    assert page.text("message") == TABLES["de"]["sameStart"][0].format(atoms=256)
    assert page.value("document.documentElement.lang") == "de" and page.text("play") == "Abspielen"
    names = page.value("[...document.getElementById('language').options].map(({ lang, text }) => [lang, text])")
    assert names == [[language, TABLES[language]["nameOfLanguage"][0]] for language in LANGUAGES]
    page.leave()
    begun(page, view.link, "de")
    page.leave()
    with View() as another:
        begun(page, another.link, "de")
        page.leave()
    begun(page, f"{view.link}?lang=fr", "fr")


def test_what_the_program_says_is_english(page: Any, view: Any) -> None:
    begun(page, f"{view.link}?lang=de", "de")
    page.value("document.getElementById('settings').elements.dt.value = '5'; document.querySelector('#settings button').click()")
    page.wait_for("document.getElementById('message').textContent.startsWith('dt must be from ')")
    assert page.value("document.getElementById('message').lang") == "en"
    page.value("document.getElementById('exact').click()")
    page.wait_for("document.getElementById('message').textContent.startsWith('256 von 256')")
    assert page.value("document.getElementById('message').hasAttribute('lang')") is False


def test_all_that_is_shown_is_of_the_tables(page: Any, view: Any) -> None:
    """Each text of them stands between brackets then, and nothing else has words but what a person has typed, and units."""
    begun(page, f"{view.link}?lang=en", "en")
    page.value("document.querySelectorAll('#charts input').forEach((each) => each.checked || each.click())")
    page.value("document.getElementById('numbers').open = true; document.getElementById('which').value = 'x'")
    page.value("document.getElementById('which').dispatchEvent(new Event('input'))")
    for button in ("save", "second", "one"):
        page.value(f"document.getElementById('{button}').click()")
    page.wait_for(
        "document.getElementById('step').textContent === '1' && document.getElementById('radial').hasAttribute('aria-description')"
    )
    page.value(BRACKETED)
    page.value("document.getElementById('which').dispatchEvent(new Event('input')); document.getElementById('reverse').click()")
    page.wait_for("document.getElementById('step').textContent === '0'")
    page.wait_for("document.querySelector('#state-now th')?.textContent.startsWith('⟦')")
    page.wait_for("[...document.querySelectorAll('canvas[aria-valuetext], [aria-description]')].every((each) => /⟦/.test(each.outerHTML))")
    found = page.value(SHOWN)
    assert sum("⟦" in text for text in found) > 100
    left = {word for text in found for word in re.findall(r"[A-Za-z]{2,}", re.sub(r"⟦.*⟧", "", text))}
    assert left <= UNITS_AND_FORMATS
