"""What the tests of a page's accessibility share: the tree that a screen reader has, the way of the focus, and contrasts."""
import re
from typing import Any, Dict, List, NamedTuple, Tuple

# What can have the focus and is shown.
CONTROLS = """[...document.querySelectorAll('button, select, input, textarea, summary, [tabindex]')]
  .filter((each) => each.checkVisibility({ visibilityProperty: true }) && !each.matches('[popover] *'))"""
ROLES = {"BUTTON": "button", "SELECT": "combobox", "TEXTAREA": "textbox", "SUMMARY": "DisclosureTriangle", "PRE": "log", "CANVAS": "slider"}
ROLES_OF_INPUTS = {
    "checkbox": "checkbox",
    "range": "slider",
    "number": "spinbutton",
    "text": "textbox",
    "password": "textbox",
    "file": "button",
}
# The texts that are shown, each with its colour and the one below it, and what of it is no contrast: a control that is turned off.
TEXTS = """(() => {
  const below = (element) => {
    for (let each = element; each; each = each.parentElement) {
      const colour = getComputedStyle(each).backgroundColor;
      if (!/, 0\\)$/.test(colour)) return colour;
    }
    return 'rgb(255, 255, 255)';
  };
  const found = [];
  const walker = document.createTreeWalker(document.body, NodeFilter.SHOW_TEXT);
  while (walker.nextNode()) {
    const parent = walker.currentNode.parentElement;
    if (!walker.currentNode.data.trim() || parent.closest(':disabled, script, option') || !parent.checkVisibility()) continue;
    const { color, fontSize, fontWeight } = getComputedStyle(parent);
    found.push([walker.currentNode.data.trim(), color, below(parent), parseFloat(fontSize), Number(fontWeight)]);
  }
  const fields = 'input:not([type=range], [type=checkbox], [type=file]), select, textarea, button:not(.link)';
  for (const field of document.querySelectorAll(fields)) {
    if (!field.checkVisibility() || field.disabled) continue;
    const { borderTopColor, backgroundColor, color, fontSize, fontWeight } = getComputedStyle(field);
    found.push([`text of ${field.id || field.name}`, color, backgroundColor, parseFloat(fontSize), Number(fontWeight)]);
    if (!field.matches('.first')) found.push([`border of ${field.id || field.name}`, borderTopColor, below(field.parentElement), 0, 0]);
  }
  return found;
})()"""
OUTLINE = """(() => {
  const element = document.activeElement.closest('.file') ?? document.activeElement;
  const { outlineColor, outlineStyle, outlineWidth } = getComputedStyle(element);
  let below = element.parentElement;
  while (/, 0\\)$/.test(getComputedStyle(below).backgroundColor)) below = below.parentElement;
  return [outlineStyle, parseFloat(outlineWidth), outlineColor, getComputedStyle(below).backgroundColor];
})()"""
HAS_FOCUS = "(each => each === document.body ? null : each.id || each.name || each.value || each.textContent)(document.activeElement)"


class Control(NamedTuple):
    """A control as the document has it, and as a screen reader has it."""

    tag: str
    kind: str
    id: str
    role: str
    name: str


def controls(browser: Any) -> List[Control]:
    """The controls that are shown, in the order of the document."""
    browser.value(f"window.controls = {CONTROLS}; 0")
    tree = {node.get("backendDOMNodeId"): node for node in browser.ask("Accessibility.getFullAXTree")["nodes"]}
    found = []
    for tag, kind, name, place in browser.value(
        "controls.map((each, place) => [each.tagName, each.type ?? '', each.id || each.name, place])"
    ):
        handle = browser.ask("Runtime.evaluate", expression=f"controls[{place}]")["result"]["objectId"]
        node = tree.get(browser.ask("DOM.describeNode", objectId=handle)["node"]["backendNodeId"], {"ignored": True})
        value = (
            {part: node.get(part, {}).get("value", "") for part in ("role", "name")} if not node["ignored"] else {"role": "", "name": ""}
        )
        found.append(Control(tag, kind, name, value["role"], value["name"]))
    return found


def misnamed(browser: Any) -> List[Control]:
    """The controls without a name, or with another role than that of their kind."""
    wanted = {each: ROLES_OF_INPUTS[each.kind] if each.tag == "INPUT" else ROLES[each.tag] for each in controls(browser)}
    assert len(wanted) > 20
    return [each for each, role in wanted.items() if each.role != role or not each.name.strip()]


def press(browser: Any, key: str, code: int, text: str = "", **words: Any) -> None:
    """Presses a key and lets it go."""
    what: Dict[str, Any] = {"key": key, "code": key, "windowsVirtualKeyCode": code, **words}
    more = {"text": text} if text else {}
    browser.ask("Input.dispatchKeyEvent", type="keyDown" if text else "rawKeyDown", **what, **more)
    browser.ask("Input.dispatchKeyEvent", type="keyUp", **what)


def way_of_focus(browser: Any) -> List[Tuple[str, Any]]:
    """What has the focus when Tab is pressed from the beginning to the end, each with its outline."""
    browser.value("document.activeElement.blur(); getSelection().collapse(document.body, 0); 0")
    way: List[Tuple[str, Any]] = []
    while len(way) < 100:
        press(browser, "Tab", 9)
        name = browser.value(HAS_FOCUS)
        if name is None or (way and name == way[0][0]):
            break
        way.append((name, browser.value(OUTLINE)))
    return way


def channels(colour: str) -> List[float]:
    """The red, green and blue of a colour, from 0 to 1."""
    numbers = [float(word) for word in re.findall(r"[\d.]+", colour)][:3]
    if colour.startswith("#"):
        return [int(colour[at : at + 2], 16) / 255 for at in (1, 3, 5)]
    return numbers if colour.startswith("color(") else [number / 255 for number in numbers]


def luminance(colour: str) -> float:
    """The relative luminance, as WCAG 2.1 defines it."""
    red, green, blue = (part / 12.92 if part <= 0.04045 else ((part + 0.055) / 1.055) ** 2.4 for part in channels(colour))
    return float(0.2126 * red + 0.7152 * green + 0.0722 * blue)


def contrast(one: str, other: str) -> float:
    """The contrast ratio of two colours, as WCAG 2.1 defines it."""
    low, high = sorted([luminance(one), luminance(other)])
    return (high + 0.05) / (low + 0.05)


def needed(size: float, weight: float) -> float:
    """The contrast that a text of a size in pixels needs: less if it is large. A border has the size 0."""
    return 3.0 if size == 0 or size >= 24 or (size >= 18.66 and weight >= 700) else 4.5


def too_pale(browser: Any) -> List[Any]:
    """The texts and borders of controls without enough contrast."""
    found = browser.value(TEXTS)
    assert len(found) > 40
    ratios = [(text, round(contrast(colour, below), 2), needed(size, weight)) for text, colour, below, size, weight in found]
    return [(text, ratio) for text, ratio, least in ratios if ratio < least]
