"""Accessibility: names and descriptions, contrast, and where the focus is. In Chromium."""

from typing import Any, Dict, List

from driving import Chromium, Page
from selenium.webdriver.common.keys import Keys

_CONTROLS = ("radio", "checkbox", "button", "link", "textbox", "DisclosureTriangle", "group", "region", "table")
# The texts with less contrast than the Web Content Accessibility Guidelines require in section 1.4.3.
_FAINT = """
const numbers = (color) => color.match(/[\\d.]+/g).map(Number);
const light = (color) => {
  const [red, green, blue] = numbers(color).map((part) => {
    const share = part / 255;
    return share <= 0.04045 ? share / 12.92 : ((share + 0.055) / 1.055) ** 2.4;
  });
  return 0.2126 * red + 0.7152 * green + 0.0722 * blue;
};
const behind = (element) => {
  for (let own = element; own; own = own.parentElement) {
    const color = getComputedStyle(own).backgroundColor;
    if ((numbers(color)[3] ?? 1) > 0) return color;
  }
  return "rgb(255, 255, 255)";
};
const faint = [];
const walker = document.createTreeWalker(document.body, NodeFilter.SHOW_TEXT);
while (walker.nextNode()) {
  const element = walker.currentNode.parentElement;
  if (!walker.currentNode.textContent.trim() || !element.checkVisibility() || element.closest("svg, script")) continue;
  const style = getComputedStyle(element);
  const [less, more] = [light(style.color), light(behind(element))].sort((a, b) => a - b);
  const size = parseFloat(style.fontSize);
  const least = size >= 24 || (size >= 18.66 && Number(style.fontWeight) >= 700) ? 3 : 4.5;
  const ratio = (more + 0.05) / (less + 0.05);
  if (ratio < least) faint.push(`${ratio.toFixed(2)}: ${walker.currentNode.textContent.trim().slice(0, 60)}`);
}
return faint;
"""
# Whether the score, which is fixed at the top, covers what has the focus; and the last field of the form.
_LAST = "[...document.querySelectorAll('#metrics summary, #metrics input')].at(-1).focus()"
_IS_HIDDEN = """
const own = document.activeElement;
const place = (own.closest("label") ?? own).getBoundingClientRect();
const score = document.getElementById("score").getBoundingClientRect();
return place.top < score.bottom && place.bottom > score.top;
"""


def _nodes(browser: Chromium) -> List[Dict[str, Any]]:
    browser.command("Accessibility.enable", {})
    tree = browser.command("Accessibility.getFullAXTree", {})
    return [node for node in tree["nodes"] if not node["ignored"]]


def _value(node: Dict[str, Any], member: str) -> str:
    return str(node.get(member, {}).get("value", ""))


def check_names(browser: Chromium) -> None:
    """Each control, group and table has a name in the tree that the browser gives to a screen reader."""
    nodes = _nodes(browser)
    for node in nodes:
        if _value(node, "role") in _CONTROLS:
            assert _value(node, "name"), node
    radios = [node for node in nodes if _value(node, "role") == "radio"]
    described = [node for node in radios if _value(node, "description")]
    # the four of the switch need no sentence
    assert len(radios) > 30 and len(radios) - len(described) == 4, (len(radios), len(described))
    names = {_value(node, "name") for node in nodes}
    assert names & {"Attack Vector AV", "Access Vector AV"} and {"Version", "Network N", "4.0"} <= names, names
    # an output is such a region by itself, and would be read aloud twice within another one
    live = "return document.querySelectorAll('[aria-live], [role=status], [role=alert], output').length"
    assert browser.run(live) == 4


def _emulate(browser: Chromium, scheme: str, width: int, height: int = 900) -> None:
    """Light or dark, in a window of this size."""
    features = [{"name": "prefers-color-scheme", "value": scheme}]
    browser.command("Emulation.setEmulatedMedia", {"features": features})
    size = {"width": width, "height": height, "deviceScaleFactor": 1, "mobile": False}
    browser.command("Emulation.setDeviceMetricsOverride", size)


def check_contrast(browser: Chromium) -> None:
    """In light and in dark, each text has enough contrast, and no window is too narrow for the page."""
    for scheme in ("light", "dark"):
        for width in (1280, 390, 320):
            _emulate(browser, scheme, width)
            faint = browser.run(_FAINT)
            assert faint == [], (scheme, width, faint)
            wide = browser.run("return document.documentElement.scrollWidth")
            assert wide <= width, (scheme, width, wide)
    _emulate(browser, "light", 1280)


def check_focus(page: Page, browser: Chromium) -> None:
    """In a narrow window the score covers nothing that the keyboard reaches (section 2.4.11)."""
    _emulate(browser, "light", 390, 700)
    browser.run(_LAST)
    seen: List[Any] = []
    while len(seen) < 40 and "AV" not in seen:
        browser.press(Keys.TAB, held=Keys.SHIFT)
        seen.append(page.focused()["name"])
        assert not browser.run(_IS_HIDDEN), page.focused()
    assert len(seen) > 15 and seen[-1] == "AV", seen
    _emulate(browser, "light", 1280)
