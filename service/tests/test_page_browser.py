"""The page in a browser: at three widths, light and dark, nothing overflows and all can be read; a walk through its forms; without scripts.

Pictures stand in the folder that WMBUS_PICTURES names, where it is set."""
from __future__ import annotations

import json
import os
import shutil
import socket
import threading
from base64 import b64decode
from collections.abc import Callable, Iterator
from pathlib import Path
from typing import Any

import pytest
import waitress

from .page_house import DAY, HOUR, TOKEN, PageHouse, page_fixture  # noqa: F401
from .processes import PATIENCE
from .test_page_hostile import MARKUP
from .test_sessions import NOW, house_fixture  # noqa: F401



def is_named(host: str) -> bool:
    """Whether a name has an address."""
    try:
        return bool(socket.getaddrinfo(host, 80))
    except OSError:
        return False


webdriver = pytest.importorskip("selenium.webdriver", reason="python3-selenium isn't there")
CHROMIUM, DRIVER = shutil.which("chromium"), shutil.which("chromedriver")
pytestmark = [pytest.mark.skipif(not (CHROMIUM and DRIVER), reason="chromium and chromium-driver aren't there"),
              pytest.mark.skipif(not is_named("localhost"), reason="selenium asks for the name localhost, which isn't known here")]
WIDTHS = (320, 390, 768, 1400)
STRANGER = "2d2c785634121b16"
KEY = "0123456789abcdef" * 2

# elements that go beyond the window, but for those within what can be scrolled; links and buttons that are too small for a finger
OVERFLOWS = """
const found = [];
if (document.documentElement.scrollWidth > innerWidth) found.push("the page is " + document.documentElement.scrollWidth + " wide");
for (const it of document.querySelectorAll("body *")) {
  const box = it.getBoundingClientRect();
  if (!box.width || it.closest(".skip") || it.parentElement.closest(".wide, svg")) continue;
  if (box.right > innerWidth + 1 || box.left < -1) found.push(it.tagName + "." + it.className + " " + box.left + " to " + box.right);
  const frame = it.closest(".box, .tall, .tiles li");
  if (frame && frame !== it && box.right > frame.getBoundingClientRect().right + 1)
    found.push(it.tagName + " leaves its box: " + it.textContent.slice(0, 40));
}
return found;"""
# the contrast of a colour with what lies behind an element (WCAG 2.2, 1.4.3)
CONTRAST = """
const parts = text => text.match(/[\\d.]+/g).map(Number);
const light = ([r, g, b]) => [r, g, b].map(it => it / 255).map(it => it <= .04045 ? it / 12.92 : ((it + .055) / 1.055) ** 2.4)
  .reduce((sum, it, place) => sum + it * [.2126, .7152, .0722][place], 0);
const behind = it => { for (; it; it = it.parentElement) { const found = parts(getComputedStyle(it).backgroundColor);
  if (found.length < 4 || found[3] > 0) return found; } return [255, 255, 255]; };
const contrast_of = (colour, it) => { const [a, b] = [light(parts(colour)), light(behind(it))].sort((x, y) => y - x);
  return (a + .05) / (b + .05); };
"""
# texts whose contrast is below 4.5
PALE = CONTRAST + """
const found = [];
for (const it of document.querySelectorAll("body *")) {
  if (![...it.childNodes].some(node => node.nodeType === 3 && node.data.trim()) || !it.getBoundingClientRect().width) continue;
  const contrast = contrast_of(getComputedStyle(it).color, it);
  if (contrast < 4.5) found.push(it.tagName + " " + it.className + " " + contrast.toFixed(2) + ": " + it.textContent.slice(0, 40));
}
return found;"""
# what a screen reader lacks: labels, names, heads of columns and rows, headings that leave out a level; what keys can't scroll
UNNAMED = """
const found = [];
for (const it of document.querySelectorAll("input:not([type=hidden]), select, textarea"))
  if (!it.labels.length) found.push("no label: " + it.name);
for (const it of document.querySelectorAll("a, button, summary")) if (!it.textContent.trim()) found.push("no words: " + it.outerHTML);
for (const it of document.querySelectorAll("svg, [role=region]")) if (!it.getAttribute("aria-label")) found.push("no name: " + it.tagName);
for (const it of document.querySelectorAll("table")) {
  const heads = it.tHead ? [...it.tHead.rows].flatMap(row => [...row.cells]) : [];
  if (!heads.length || heads.some(cell => !cell.matches("th[scope=col]") || !cell.textContent.trim())) found.push("no heads of columns");
  for (const row of [...it.tBodies].flatMap(body => [...body.rows]))
    if (row.cells.length !== heads.length || !row.cells[0].matches("th[scope=row]")) found.push("no head of the row: " + row.textContent);
}
for (const it of document.querySelectorAll("body *:not(input, select)"))
  if (/auto|scroll/.test(getComputedStyle(it).overflow) && (it.scrollWidth > it.clientWidth || it.scrollHeight > it.clientHeight)
      && it.tabIndex < 0) found.push("keys can't scroll: " + it.className);
let last = 0;
for (const it of document.querySelectorAll("h1, h2, h3, h4, h5, h6")) {
  const level = Number(it.tagName[1]);
  if (level > last + 1) found.push("leaves out: " + it.textContent);
  last = level;
}
if (document.querySelectorAll("h1").length !== 1 || !document.title || !document.documentElement.lang) found.push("no head");
return found;"""

# numbers of meters that go on in the next line: half of one is read as another one
BROKEN = """
const found = [];
for (const it of document.querySelectorAll(".meters td.number, .registers td.text")) {
  const number = document.createRange();
  number.setStart(it.firstChild, 0);
  number.setEnd(it.firstChild, it.firstChild.data.lastIndexOf(" "));
  if (new Set([...number.getClientRects()].map(line => Math.round(line.top))).size > 1) found.push(it.firstChild.data);
}
return found;"""


def fill(page: PageHouse) -> None:
    """A house with all that a page may show."""
    first, second, third = page.addresses
    page.write("update meter set name = 'Cellar, the great meter behind the door' where address = ?", first)
    page.write("update meter set name = ? where address = ?", (MARKUP + "w" * 200).replace("\0", ""), second)
    for back in range(40, 0, -1):
        page.read(first, NOW - back * DAY, ("volume", "m3", -3, str(100_000 - 37 * back)),
                  ("flowtemperature", "C", -1, str(200 + back % 7)),
                  ("manufacturer", "-", 0, "raw"), ("volume", "m3", -3, "55", "maximum", 3))
    for back in range(30, 0, -1):
        page.volume(first, NOW - back * HOUR // 2, 100_060 - 2 * back)
    page.read(second, NOW - 5 * DAY, ("energy", "Wh", 3, "9" * 60), ("unknown", "-", 0, "raw"))
    for address, reason, words in ((third, "mac", "mac"), (first, "mode", "mode 5 7"), (first, "stale", "stale 4 9")):
        page.write("insert into refusal values (?, ?, ?, 12345, 1, ?)", address, reason, words, NOW - 60)
    page.write("insert into stranger values (?, 99, 'attic', ?), ('4304123040010404', 1, 'roof', ?)", STRANGER, NOW - 60, NOW - DAY)
    page.write("insert into aside (receiver, text, said, made) values ('attic', 'A 1 00', 'status 10: wmbus: no memory', ?)", NOW)
    for state in ("waiting", "queued", "sent", "confirmed", "expired", "cancelled", "refused"):
        page.write("insert into command (id, address, kind, payload, state, made, changed) values (?, ?, 'send', ?, ?, 1, ?)",
                   state * 8, first, "0f" * 94, state, NOW - 60)
    page.write("insert into line (receiver, text, made) values ('attic', 'A 1 00', ?), ('roof', 'A 1 00', ?)", NOW - 60, NOW - 3 * HOUR)


@pytest.fixture(name="address")
def address_fixture(page: PageHouse) -> Iterator[str]:
    """The filled page's address."""
    fill(page)
    server = waitress.create_server(page.page(TOKEN), host="127.0.0.1", port=0)
    threading.Thread(target=server.run, daemon=True).start()
    yield f"http://127.0.0.1:{server.effective_port}"
    server.close()


@pytest.fixture(name="browser")
def browser_fixture(tmp_path: Path) -> Iterator[Any]:
    """A browser that executes no script of a page."""
    from selenium.webdriver.chrome.service import Service
    options = webdriver.ChromeOptions()
    options.binary_location = CHROMIUM
    for word in ("--headless=new", "--no-sandbox", "--disable-gpu", "--hide-scrollbars", "--disable-dev-shm-usage", "--no-first-run",
                 "--disable-background-networking", "--disable-component-update", f"--user-data-dir={tmp_path / 'browser'}"):
        options.add_argument(word)
    # (programs of the browser write into the home, which may be read-only)
    service = Service(DRIVER or "", env=os.environ | {"HOME": str(tmp_path), "TMPDIR": str(tmp_path)})
    driver = webdriver.Chrome(service=service, options=options)
    try:
        driver.set_page_load_timeout(PATIENCE)
        driver.set_script_timeout(PATIENCE)
        yield driver
    finally:
        driver.quit()


def wait(browser: Any, is_done: Callable[[], object]) -> None:
    """Waits until something is so, on this page or on the next one."""
    from selenium.common.exceptions import NoSuchElementException, StaleElementReferenceException
    from selenium.webdriver.support.wait import WebDriverWait
    WebDriverWait(browser, PATIENCE, ignored_exceptions=(NoSuchElementException, StaleElementReferenceException)).until(lambda _: is_done())


def test_widths_and_colours(page: PageHouse, address: str, browser: Any) -> None:
    """At 320, 390, 768 and 1,400 px, light and dark: no element goes beyond the window or its box, every text has contrast, all has a name."""
    pictures = os.environ.get("WMBUS_PICTURES")
    paths = {"overview": "/", "found": "/meters?q=cellar&order=name", "meter": f"/meters/{page.addresses[0]}",
             "meter2": f"/meters/{page.addresses[1]}", "receivers": "/receivers", "strangers": "/strangers", "enter": "/enter", "fault": "/nothing"}
    faults = {}
    for width in WIDTHS:
        for scheme in ("light", "dark"):
            size = {"width": width, "height": 900, "deviceScaleFactor": 1, "mobile": False}
            browser.execute_cdp_cmd("Emulation.setDeviceMetricsOverride", size)
            browser.execute_cdp_cmd("Emulation.setEmulatedMedia", {"features": [{"name": "prefers-color-scheme", "value": scheme}]})
            for name, path in paths.items():
                browser.get(address + path)
                assert browser.execute_script("return getComputedStyle(document.body).backgroundColor") == (
                    "rgb(244, 246, 248)" if scheme == "light" else "rgb(18, 23, 28)")
                found = [fault for script in (OVERFLOWS, PALE, UNNAMED) for fault in browser.execute_script(script)]
                if found:
                    faults[name, width, scheme] = found[:5]
                if pictures:
                    size = browser.execute_cdp_cmd("Page.getLayoutMetrics", {})["cssContentSize"]
                    clip = {"x": 0, "y": 0, "width": width, "height": min(size["height"], 3000), "scale": 1}
                    shot = browser.execute_cdp_cmd("Page.captureScreenshot", {"captureBeyondViewport": True, "clip": clip})
                    Path(pictures, f"{name}-{width}-{scheme}.png").write_bytes(b64decode(shot["data"]))
    assert not faults, json.dumps({str(key): value for key, value in faults.items()}, indent=1)
    assert not [entry for entry in browser.get_log("browser") if "script" in entry["message"].lower()]


@pytest.mark.parametrize("width", [320, 390, 560, 640, 768, 1400])
def test_numbers_stay_whole(page: PageHouse, address: str, browser: Any, width: int) -> None:
    """In the lists of meters and registers no number goes on in the next line, however long the names beside it are, also in a window that is
    zoomed."""
    page.write("update meter set name = ?", "Wasserzähler Küche Müllerstraße 12, drittes Obergeschoß links, Wohnung Nr. 0815")
    page.write("delete from record")
    for meter in page.addresses:
        page.volume(meter, NOW - 60, 1_234_567_890)
    browser.execute_cdp_cmd("Emulation.setDeviceMetricsOverride", {"width": width, "height": 900, "deviceScaleFactor": 1, "mobile": False})
    browser.get(f"{address}/meters/{page.addresses[0]}")
    assert browser.execute_script(BROKEN) == [] and browser.execute_script(OVERFLOWS) == []
    browser.get(address)
    numbers = browser.execute_script("return [...document.querySelectorAll('.meters td.number')].map(it => it.firstChild.data)")
    assert numbers == ["1\u202f234\u202f567.890 m³"] * 3
    assert browser.execute_script(BROKEN) == [] and browser.execute_script(OVERFLOWS) == []


def test_walk_through_the_forms(page: PageHouse, address: str, browser: Any) -> None:
    """Enter, queue a command, cancel it, make a stranger a meter, leave."""
    from selenium.webdriver.common.by import By

    def find(by: str, words: str) -> Any:
        wait(browser, lambda: browser.find_element(by, words))
        return browser.find_element(by, words)

    def follow(by: str, words: str, is_done: Callable[[], object]) -> None:
        """Clicks on what leads to another page, and waits until that one is there."""
        before = browser.find_element(By.TAG_NAME, "html")
        find(by, words).click()
        wait(browser, lambda: browser.find_element(By.TAG_NAME, "html") != before and is_done())

    def press(words: str, is_done: Callable[[], object]) -> None:
        follow(By.XPATH, f"//button[normalize-space()='{words}']", is_done)

    def write(name: str, text: str) -> None:
        find(By.CSS_SELECTOR, f"details[open] [name={name}], main > form [name={name}]").send_keys(text)

    def is_told(words: str) -> bool:
        return words in browser.find_element(By.TAG_NAME, "body").text
    page.write("delete from command")
    browser.get(address)
    follow(By.LINK_TEXT, "Enter", lambda: browser.find_element(By.NAME, "token"))
    write("token", TOKEN)
    press("Enter", lambda: browser.find_element(By.XPATH, "//button[.='Leave']"))
    browser.get(f"{address}/meters/{page.addresses[0]}")
    write("payload", "01 02 ff")
    press("Queue", lambda: is_told(" waits"))
    ((ident, payload, state),) = page.house.all("select id, payload, state from command")
    assert (payload, state) == ("0102ff", "waiting") and is_told(f"Command {ident} waits")
    press(f"Cancel {ident}", lambda: page.house.all("select state from command") == ["cancelled"])
    browser.get(f"{address}/strangers")
    find(By.CSS_SELECTOR, "summary").click()
    write("name", "Garden")
    write("key", KEY)
    press("Add this meter", lambda: browser.find_element(By.TAG_NAME, "h1").text == "Garden")
    assert KEY not in browser.page_source
    assert page.house.all(f"select name from meter where address = '{STRANGER}'") == ["Garden"]
    press("Leave", lambda: not browser.find_elements(By.XPATH, "//button[.='Leave']"))
