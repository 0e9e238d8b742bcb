"""A browser without a window, for the tests of pages: Debian's chromium."""

from __future__ import annotations

from collections.abc import Iterator
from contextlib import contextmanager
from typing import Any

from selenium import webdriver
from selenium.webdriver.chrome.service import Service


def options() -> webdriver.ChromeOptions:
    """How the browser is started."""
    made = webdriver.ChromeOptions()
    made.binary_location = "/usr/bin/chromium"
    # Root, as which tests may run in a container, has no sandbox, and a container little shared memory.
    for flag in ("--headless=new", "--no-sandbox", "--disable-gpu", "--disable-dev-shm-usage", "--hide-scrollbars"):
        made.add_argument(flag)
    return made


def started(how: webdriver.ChromeOptions) -> Any:
    """A browser."""
    return webdriver.Chrome(service=Service("/usr/bin/chromedriver"), options=how)


@contextmanager
def opened(width: int, height: int) -> Iterator[Any]:
    """A browser whose page is so wide and high, closed at the end."""
    browser = started(options())
    try:
        size = {"width": width, "height": height, "deviceScaleFactor": 1, "mobile": False}
        browser.execute_cdp_cmd("Emulation.setDeviceMetricsOverride", size)
        yield browser
    finally:
        browser.quit()


def point(browser: Any, x: float, y: float) -> None:
    """Moves the pointer to a place of the window."""
    browser.execute_cdp_cmd("Input.dispatchMouseEvent", {"type": "mouseMoved", "x": x, "y": y})
