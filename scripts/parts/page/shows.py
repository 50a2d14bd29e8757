"""What a person sees on the page: who is dead, whom it keeps waiting, and the command that finishes it; that the page is
live, says when the server is gone, takes names as text, and works at 400 and 1,400 pixels, light and dark, by keyboard.
With a folder, its pictures are written there."""

import os
import sys
import time

from lib.browser import Browser, chromium
from lib.checks import check, main_in_folders, same, skip
from lib.page import StandIn, policy, script, style, sum_of

MARKUP = "<b>bold</b><img src=x onerror=alert(1)>"


def status_of(began):
    """A status: a dead owner, a dead waiter, three that wait, and a lock that is at work."""

    def status(space):
        if space == "none":
            return None
        passed = int(time.monotonic() - began)
        workers = [{"attached": True, "number": 9, "seconds": passed, "stance": "ready"} for _ in range(8)]
        workers[0] |= {"as": MARKUP, "blocked_by": 2, "lock": "bank", "seconds": 61 + passed, "stance": "climb"}
        workers[1] |= {"blocked_by": 0, "lock": "bank", "seconds": 12 + passed, "stance": "climb"}
        workers[2] |= {"as": "host7:cron", "attached": False, "lock": "bank", "seconds": 130 + passed, "stance": "held"}
        workers[3] |= {"attached": False, "blocked_by": 5, "lock": "shop", "seconds": 3700 + passed, "stance": "climb"}
        workers[5] |= {"as": "runner-5", "lock": "shop", "seconds": passed % 7, "stance": "held"}
        workers[6] |= {"blocked_by": 5, "lock": "shop", "seconds": 2 + passed, "stance": "climb"}
        sections = 1000 + int(37 * (time.monotonic() - began))
        locks = [
            {"cells": [1], "name": "stock", "owner": None, "sections": 10, "settled": True},
            {"cells": [1], "name": "bank", "owner": 2, "sections": 120, "settled": False},
            {"cells": [1], "name": "shop", "owner": 5, "sections": sections, "settled": False},
        ]
        leader = {"leader": MARKUP, "term": 7}
        return {"epoch": 3, **leader, "locks": locks, "ok": "status", "workers": workers}

    return status


def text_at(place):
    return f"document.querySelector({place!r}).textContent"


def try_sums():
    """The policy of the page has the checksums of its style and its script."""
    check("of the style", f"style-src '{sum_of(style())}'" in policy(), sum_of(style()))
    check("of the script", f"script-src '{sum_of(script())}'" in policy(), sum_of(script()))


def try_dead(browser):
    first = browser.value(text_at("#finish li"))
    check("the dead owner is first, since when", "worker 2 (host7:cron) is down and owns bank for 2 min" in first, first)
    check("whom it keeps waiting", f"Keeps waiting: worker 0 ({MARKUP}), worker 1." in first, first)
    check("the command that finishes it", first.endswith("rme ask finish 2"), first)
    second = browser.value(text_at("#finish li:nth-child(2)"))
    check("then a dead waiter", "worker 3 is down and waits for shop for 1 h 1 min" in second, second)
    names = "[...document.querySelectorAll('#locks tr.lock button')].map((it) => it.textContent).join()"
    same("the locks, dead owners first", browser.value(names), "bank,shop,stock")
    same("names are text", browser.value("document.querySelectorAll('b, img').length"), 0)


def try_leader(browser):
    same("the epoch, who leads, and the term", browser.value(text_at("#epoch")), f"epoch 3, leader {MARKUP}, term 7")


def try_live(browser):
    row = text_at("#locks tr.lock:nth-child(2)")
    before = browser.value(row)
    check("it is live", browser.holds_within(f"{row} !== {before!r}", 5))
    check("jobs a second", browser.holds_within("parseFloat(" + text_at("#rate-now") + ") > 0", 10))


def try_keyboard(browser):
    """A lock's tree is opened by the keyboard, and stays open and focused."""
    focused = "document.activeElement.id"
    for _ in range(10):
        browser.press("Tab")
        if browser.value(focused) == "lock-1":
            break
    browser.press("Enter")
    check("the tree opens", browser.holds_within("!!document.querySelector('tr.detail svg')", 5))
    time.sleep(2.5)
    same("the focus stays", browser.value(focused), "lock-1")
    same("its root", browser.value(text_at("tr.detail svg text")), "2")
    browser.value("document.querySelectorAll('#locks tr.lock')[1].click()")
    check("by a click", browser.holds_within("document.querySelectorAll('tr.detail svg').length === 2", 5))


def try_looks(browser, folder):
    for width, height in ((1400, 1000), (400, 900)):
        for scheme in ("light", "dark"):
            browser.show_as(width, height, scheme)
            time.sleep(1.2)
            fits = browser.value("document.documentElement.scrollWidth <= innerWidth")
            check(f"it fits {width} pixels, {scheme}", fits)
            browser.picture(os.path.join(folder, f"{width}-{scheme}.png"))


def try_gone(browser, server, status):
    server.close()
    gone = "!document.getElementById('gone').classList.contains('hide') && " + text_at("#gone") + ".includes('gone')"
    check("it says when the server is gone", browser.holds_within(gone))
    again = StandIn(status, server.port)
    check("it comes back", browser.holds_within(text_at("#live") + " === 'live'"))
    browser.open(f"http://127.0.0.1:{server.port}/?space=none")
    check("a space that is not there", browser.holds_within(text_at("#gone") + ".includes('no space none')"))
    again.close()


def try_page(folder):
    folder = sys.argv[1] if len(sys.argv) > 1 else folder
    try_sums()
    if not chromium():
        skip("the page in a browser", "there is no chromium")
        return
    status = status_of(time.monotonic())
    server = StandIn(status)
    browser = Browser()
    try:
        browser.show_as(1400, 1000, "light")
        browser.open(f"http://127.0.0.1:{server.port}/")
        check("it shows a status", browser.holds_within(text_at("#live") + " === 'live'"))
        try_dead(browser)
        try_leader(browser)
        try_live(browser)
        try_keyboard(browser)
        try_looks(browser, folder)
        try_gone(browser, server, status)
        same("nothing that the policy forbids, and no error", browser.complaints(), [])
    finally:
        browser.close()


def part():
    main_in_folders(try_page, minutes=5)
