"""The page by keys alone: Tab goes through each page in the order in which it is read, and shows where it is; the forms are done without a
mouse; and each of these finds the fault of a page that has one."""
from __future__ import annotations

from collections.abc import Callable
from itertools import pairwise
from typing import Any

import pytest

from .page_house import TOKEN, PageHouse, page_fixture  # noqa: F401
from .test_page_browser import CONTRAST, KEY, STRANGER, UNNAMED, address_fixture, browser_fixture, pytestmark, wait  # noqa: F401
from .test_sessions import house_fixture  # noqa: F401

# keys, by their numbers (WebDriver, 17.4.2)
TAB, ENTER = "\ue004", "\ue007"
# so many times Tab is pressed on a page at most, and so often within a date
MOST, DATE = 150, 4
# what a person acts on, and what of it is shown: not what is in details that are closed
SHOWN = """
const acted = "a[href], button, input:not([type=hidden]), select, textarea, summary";
const is_shown = it => it.checkVisibility() && !it.closest("details:not([open]) > :not(summary)");
"""
# what is to have the focus, in the order of the page
WANTED = SHOWN + """
return [...document.querySelectorAll("*")].map((it, place) => ({it, place}))
  .filter(({it}) => (it.matches(acted) || it.tabIndex >= 0) && !it.disabled && is_shown(it))
  .map(({it, place}) => ({place, words: it.outerHTML.slice(0, 80), is_main: !!it.closest("main")}));"""
# what is to have a name
NAMED = SHOWN + "return [...document.querySelectorAll(acted + ', svg, [role=region], nav')].filter(is_shown);"
# has the page write down what gets the focus: the element's place, its ring, and whether it stands where it can be seen
WATCHED = CONTRAST + """
window.stops = [];
document.addEventListener("focusin", ({target}) => {
  const style = getComputedStyle(target), box = target.getBoundingClientRect(), page = document.documentElement;
  stops.push({place: [...document.querySelectorAll("*")].indexOf(target), words: target.outerHTML.slice(0, 80),
    top: box.top + scrollY, bottom: box.bottom + scrollY,
    ring: style.outlineStyle === "none" ? 0 : parseFloat(style.outlineWidth),
    contrast: contrast_of(style.outlineColor, target.parentElement),
    is_seen: box.width > 0 && box.left + scrollX >= 0 && box.right + scrollX <= page.scrollWidth && box.top + scrollY >= 0});
});"""


class Keyboard:
    """A person with a keyboard alone."""

    def __init__(self, browser: Any) -> None:
        self.browser = browser

    def press(self, *keys: str) -> None:
        """Presses keys, one after the other."""
        from selenium.webdriver.common.action_chains import ActionChains
        chains: Any = ActionChains
        chains(self.browser).send_keys(*keys).perform()

    def stops(self, *keys: str) -> list[dict[str, Any]]:
        """What gets the focus while keys are pressed, until that begins anew at the page's top."""
        self.browser.execute_script(WATCHED)
        self.press(*keys)
        found: list[dict[str, Any]] = self.browser.execute_script("return stops")
        again = [at for at, stop in enumerate(found) if at and stop["place"] == found[0]["place"]]
        return found[:again[0]] if again else found

    def go_to(self, tag: str, name: str) -> None:
        """Presses Tab until an element of this name has the focus, as a screen reader says it."""
        for _ in range(MOST):
            self.press(TAB)
            if self.browser.execute_script("return document.activeElement.localName") == tag:
                if self.browser.switch_to.active_element.accessible_name == name:
                    return
        pytest.fail(f"Tab never comes to {tag} {name}")


def faults(browser: Any) -> list[str]:
    """What is wrong with a page for who has no mouse."""
    wanted = browser.execute_script(WANTED)
    stops = Keyboard(browser).stops(TAB * sum(DATE if 'type="date"' in it["words"] else 1 for it in wanted))
    places, names = [it["place"] for it in stops], {it["place"]: it["words"] for it in wanted}
    found = [f"never has the focus: {words}" for place, words in names.items() if place not in places]
    found += [f"has the focus: {it['words']}" for it in stops if it["place"] not in names]
    found += [f"out of order: {then['words']}" for before, then in pairwise(stops) if then["place"] < before["place"]]
    found += [f"goes up: {then['words']}" for before, then in pairwise(stops) if then["bottom"] <= before["top"]]
    for it in stops:
        if it["ring"] < 2 or it["contrast"] < 3:
            found.append(f"no ring: {it['words']}")
        if not it["is_seen"]:
            found.append(f"out of sight: {it['words']}")
    return found


def skip_faults(browser: Any) -> list[str]:
    """What is wrong with the link to the contents."""
    first, *then = Keyboard(browser).stops(TAB, ENTER, TAB)
    if 'href="#main"' not in first["words"] or not first["is_seen"]:
        return ["there is no link to the contents"]
    inner = [it["place"] for it in browser.execute_script(WANTED) if it["is_main"]]
    return [] if [it["place"] for it in then] == inner[:1] else [f"the link to the contents leads to {[it['words'] for it in then]}"]


def unnamed(browser: Any) -> list[str]:
    """What a screen reader lacks, also where the browser itself says how it names things."""
    found: list[str] = browser.execute_script(UNNAMED)
    return found + [f"no name: {it.get_attribute('outerHTML')[:80]}" for it in browser.execute_script(NAMED) if not it.accessible_name]


def give_token(browser: Any, address: str) -> None:
    """Has the browser be one that gave the token."""
    browser.get(f"{address}/enter")
    browser.find_element("name", "token").send_keys(TOKEN)
    browser.find_element("css selector", "main button").click()
    wait(browser, lambda: browser.find_element("xpath", "//button[.='Leave']"))


OPEN = "for (const it of document.querySelectorAll('details')) it.open = true;"


@pytest.mark.parametrize("width, scheme", [(390, "dark"), (1400, "light")])
def test_tab_goes_through_each_page(page: PageHouse, address: str, browser: Any, width: int, scheme: str) -> None:
    """Every link, field and button has the focus, in the order in which it is read, in sight and with a ring; everything has a name."""
    browser.execute_cdp_cmd("Emulation.setDeviceMetricsOverride", {"width": width, "height": 900, "deviceScaleFactor": 1, "mobile": False})
    browser.execute_cdp_cmd("Emulation.setEmulatedMedia", {"features": [{"name": "prefers-color-scheme", "value": scheme}]})
    give_token(browser, address)
    first, second, _ = (f"/meters/{it}" for it in page.addresses)
    found = {}
    for path, script in (("/", ""), ("/meters?q=cellar", ""), (first, ""), (f"{second}?span=year", ""), ("/receivers", ""),
                         ("/strangers", ""), ("/strangers", OPEN), ("/enter", ""), ("/nothing", "")):
        browser.get(address + path)
        browser.execute_script(script)
        told = unnamed(browser) + faults(browser)
        browser.get(address + path)
        told += skip_faults(browser)
        if told:
            found[path, script] = told[:5]
    assert not found


# what is done to a meter's page, who finds it, and in which words
FAULTS: list[tuple[str, Callable[[Any], list[str]], str]] = [
    ("document.querySelector('main button').tabIndex = 3", faults, "out of order: "),
    ("document.querySelector('main a').tabIndex = -1", faults, "never has the focus: <a"),
    ("document.querySelector('main button').onkeydown = it => it.preventDefault()", faults, "never has the focus: "),
    ("const sheet = document.styleSheets[1]; sheet.insertRule('a:focus-visible { outline: none }', sheet.cssRules.length)", faults,
     "no ring: <a"),
    ("document.querySelector('main').style.cssText = 'display: flex; flex-direction: column-reverse'", faults, "goes up: "),
    ("document.querySelector('main button').style.cssText = 'position: absolute; left: -99rem'", faults, "out of sight: <button"),
    ("document.querySelector('main label').replaceWith(...document.querySelector('main label').childNodes)", unnamed, "no label: "),
    ("document.querySelector('h2').outerHTML = '<h4>4</h4>'", unnamed, "leaves out: 4"),
    ("document.querySelector('h2').outerHTML = '<h1>1</h1>'", unnamed, "no head"),
    ("document.querySelector('tbody th').outerHTML = '<td>1</td>'", unnamed, "no head of the row"),
    ("document.querySelector('thead').remove()", unnamed, "no heads of columns"),
    ("for (const it of document.querySelectorAll('.tall')) it.removeAttribute('tabindex')", unnamed, "keys can't scroll: tall"),
    ("document.querySelector('.skip').href = '#nothing'", skip_faults, "there is no link to the contents"),
    ("document.querySelector('.skip').style.position = 'absolute'", skip_faults, "there is no link to the contents"),
    ("document.querySelector('#main').id = 'other'", skip_faults, "the link to the contents leads to"),
]


def test_faults_are_found(page: PageHouse, address: str, browser: Any) -> None:
    """A page without a label, with another order of Tab, without a ring, and others that aren't right, each by itself."""
    give_token(browser, address)
    for script, look, sign in FAULTS:
        browser.get(f"{address}/meters/{page.addresses[0]}")
        browser.execute_script(script)
        told = look(browser)
        assert any(it.startswith(sign) for it in told), (script, told)


def test_forms_by_keys_alone(page: PageHouse, address: str, browser: Any) -> None:
    """Enter, go to a meter, queue a command, cancel it, look at a year, make a stranger a meter, leave."""
    keyboard = Keyboard(browser)

    def follow(tag: str, name: str, key: str, is_done: Callable[[], object]) -> None:
        """Presses a key on an element that leads to another page."""
        before = browser.find_element("tag name", "html")
        keyboard.go_to(tag, name)
        keyboard.press(key)
        wait(browser, lambda: browser.find_element("tag name", "html") != before and is_done())

    def head() -> str:
        return str(browser.find_element("tag name", "h1").text)

    def is_told(words: str) -> bool:
        return words in browser.find_element("tag name", "body").text
    page.write("delete from command")
    browser.get(address)
    follow("a", "Enter", ENTER, lambda: head() == "Enter")
    keyboard.go_to("input", "Token")
    keyboard.press(TOKEN)
    follow("button", "Enter", " ", lambda: browser.find_element("xpath", "//button[.='Leave']"))
    name = "Cellar, the great meter behind the door"
    follow("a", name, ENTER, lambda: head() == name)
    follow("a", "year", ENTER, lambda: browser.find_element("css selector", "main [aria-current]").text == "year")
    keyboard.go_to("input", "What the meter gets, 1 to 94 bytes in hexadecimal")
    keyboard.press("01 02 ff", ENTER)
    wait(browser, lambda: is_told(" waits for the next session"))
    ((ident, payload, state),) = page.house.all("select id, payload, state from command")
    assert (payload, state) == ("0102ff", "waiting")
    follow("button", f"Cancel {ident}", " ", lambda: page.house.all("select state from command") == ["cancelled"])
    follow("a", "Strangers", ENTER, lambda: head() == "Strangers")
    keyboard.go_to("summary", "This is mine")
    keyboard.press(ENTER, TAB, "Garden", TAB, KEY, TAB, "5", TAB, ENTER)
    wait(browser, lambda: head() == "Garden")
    assert page.house.all(f"select name, block from meter where address = '{STRANGER}'") == [
        ("Garden", f"meter {STRANGER} 5 {KEY} - - 0 0\n")]
    follow("button", "Leave", " ", lambda: not browser.find_elements("xpath", "//button[.='Leave']"))
