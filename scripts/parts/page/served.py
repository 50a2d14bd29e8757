"""The page of a real server with a dead owner, a dead waiter and waiting workers, by HTTP and in a headless Chromium: what a
person must see of them, that it is live, that it goes on when the server is back, and that a page of spaces asks for a
name. With a folder, its pictures are written there."""

import json
import os
import sys

from lib import spaces
from lib.browser import Browser, chromium
from lib.checks import check, main_in_folders, same, skip
from lib.kept import serve
from lib.orders import RESUME, STATUS, attach, job, lock_status, without_seconds, worker_status
from lib.page import page, policy
from lib.web import asked, comes

MARKUP = "<b>bold</b><img src=x onerror=alert(1)>"
FIVE = ["add", 0, 5]
LIVE = "document.querySelector('#live').textContent === 'live'"
GONE = "!document.querySelector('#gone').classList.contains('hide')"
ROWS = "[...document.querySelectorAll('#locks tr.lock')].map((it) => it.textContent)"
HEIGHTS = "document.querySelector('#rate-line').getAttribute('points').split(' ').map((it) => it.split(',')[1])"


def text_at(place):
    return f"document.querySelector({place!r}).textContent"


def begun(server, worker, do, lock, **more):
    """A session whose worker has job 1 on a lock: it is inside after `enter`, if nobody is, and else it waits."""
    session = server.session()
    label = {"as": more.pop("label")} if "label" in more else {}
    session.ask_all(attach(worker, **label), job(do, lock, 1, FIVE, tries=2, **more))
    return session


def cast(server):
    """Worker 2 is dead inside bank, worker 3 died while it waited for it, workers 0 and 1 wait; worker 5 is at work in shop."""
    owner = begun(server, 2, "enter", "bank", label="host7:cron")
    sessions = [begun(server, 0, "submit", "bank", label=MARKUP), begun(server, 1, "submit", "bank")]
    waiter = begun(server, 3, "submit", "bank")
    sessions.append(begun(server, 5, "submit", "shop", label="runner-5"))
    owner.reset()
    waiter.reset()
    looks = server.session()
    comes(lambda: [looks.told(**STATUS)["workers"][it]["attached"] for it in (2, 3)], [False, False])
    return [*sessions, looks]


# The nodes of bank, over 8 leaves: worker 2 holds its path up to the root; 3 is its neighbour; 0 took the node above 0 and 1.
WANTED = {
    "epoch": 0,
    "locks": [lock_status("bank", [0], owner=2, settled=False), lock_status("shop", [5], sections=1)],
    "ok": "status",
    "workers": [
        worker_status(True, "climb", 1, blocked_by=2, lock="bank", **{"as": MARKUP}),
        worker_status(True, "climb", 1, blocked_by=0, lock="bank"),
        worker_status(False, "held", 1, lock="bank", **{"as": "host7:cron"}),
        worker_status(False, "climb", 1, blocked_by=2, lock="bank"),
        worker_status(False, "ready", 0),
        worker_status(True, "ready", 1, **{"as": "runner-5"}),
    ],
}


def try_by_http(server):
    answer = asked(server.http, "/status")
    same("the status", without_seconds(json.loads(answer.content)), WANTED)
    answer = asked(server.http, "/")
    same("the page is that of the sources", answer.content.decode(), page())
    same("its policy", answer.fields["content-security-policy"], policy())


def try_dead(browser):
    first, second = (f"#finish li:nth-child({at})" for at in (1, 2))
    seen = browser.value(text_at(first))
    check("the dead owner is first", all(word in seen for word in ("worker 2 (host7:cron)", "down", "owns bank")), seen)
    check("whom it keeps waiting", all(word in seen for word in (f"worker 0 ({MARKUP})", "worker 1", "worker 3")), seen)
    same("the command that finishes it", browser.value(text_at(f"{first} code")), "rme ask finish 2")
    seen = browser.value(text_at(second))
    check("then the dead waiter", all(word in seen for word in ("worker 3", "down", "waits for bank")), seen)
    same("the command that finishes it", browser.value(text_at(f"{second} code")), "rme ask finish 3")
    same("nothing else is to be finished", browser.value("document.querySelectorAll('#finish li').length"), 2)
    same("names are text", browser.value("document.querySelectorAll('b, img').length"), 0)
    check("the title says it", browser.value("document.title").startswith("(1 dead)"), browser.value("document.title"))


def try_tables(browser):
    bank, shop = browser.value(ROWS)
    check("the lock of the dead owner is first", all(word in bank for word in ("bank", "worker 2", "DEAD")), bank)
    check("the other is free", all(word in shop for word in ("shop", "nobody", "free")), shop)
    same("who waits", browser.value("document.querySelectorAll('#waiting tr').length"), 3)
    browser.value("document.querySelector('#lock-0').click()")
    check("a tree is drawn", browser.holds_within("!!document.querySelector('tr.detail svg')", 5))
    same("its root is the owner's", browser.value(text_at("tr.detail svg text")), "2")


def try_live(browser, server, runner):
    """Jobs are counted; the dead owner's job is finished; the server goes, and is back."""
    for number in range(2, 40):
        runner.ask(job("submit", "shop", number, FIVE))
    shown = f"{ROWS}.some((it) => it.includes('shop') && it.includes('39'))"
    check("the jobs of the lock", browser.holds_within(shown, 5), browser.value(text_at("#locks")))
    check("the line of jobs a second is no flat one", browser.holds_within(f"new Set({HEIGHTS}).size > 1", 5))
    session = server.session()
    session.attach(2)
    same("the job of the dead owner", session.told(**RESUME)["receipt"]["reply"], 5)
    rest = f"document.querySelectorAll('#finish li').length === 1 && {text_at('#finish li')}.includes('worker 3')"
    check("then only the dead waiter is to be finished", browser.holds_within(rest, 5), browser.value(text_at("#finish")))
    check("both locks are free", browser.holds_within(f"{ROWS}.every((it) => it.includes('free'))", 5))
    session.close()


def try_back(browser, server, path):
    server.kill()
    check("it says when the server is gone", browser.holds_within(f"{GONE} && {text_at('#gone')}.includes('gone')"))
    server = serve(path, http=server.http)
    check("it goes on when it is back", browser.holds_within(f"{LIVE} && !({GONE})"))
    # No session has a worker now: 0 and 1 wait without one, as 3 does.
    check("all that waited are down", browser.holds_within("document.querySelectorAll('#finish li').length === 3", 5))
    server.kill()


def in_browser(call):
    """Calls with a browser that is closed at the end."""
    browser = Browser()
    try:
        browser.show_as(1400, 1000, "light")
        call(browser)
        complaints = [it for it in browser.complaints() if "net::ERR_" not in it]  # but for a server that is gone
        same("nothing that the policy forbids, and no error", complaints, [])
    finally:
        browser.close()


def try_served(folder):
    path = os.path.join(folder, "bank.state")
    server = serve(path, "bank", "shop", workers=6, http=0)
    sessions = cast(server)
    try_by_http(server)
    if not chromium():
        skip("the page in a browser", "there is no chromium")
        server.kill()
        return

    def look(browser):
        browser.open(f"http://127.0.0.1:{server.http}/")
        check("it shows the status", browser.holds_within(LIVE))
        try_dead(browser)
        try_tables(browser)
        browser.picture(os.path.join(sys.argv[1] if len(sys.argv) > 1 else folder, "served.png"))
        try_live(browser, server, sessions[2])
        try_back(browser, server, path)

    in_browser(look)


def try_spaces(folder):
    """The page of a server of spaces asks for the name of one."""
    server = spaces.serve(os.path.join(folder, "spaces"), http=0)
    spaces.made(server, "tenant-7", workers=3)
    session = server.session()
    session.ask_all(spaces.use("tenant-7"), attach(1), job("enter", "bank", 1, FIVE))
    session.reset()
    if not chromium():
        skip("the page of a space in a browser", "there is no chromium")
        server.kill()
        return

    def look(browser):
        browser.open(f"http://127.0.0.1:{server.http}/")
        asks = "!document.querySelector('#space').classList.contains('hide')"
        check("it asks for a name", browser.holds_within(asks))
        browser.value("document.querySelector('#space-name').value = 'tenant-7'")
        browser.value("void setTimeout(() => document.querySelector('#space-go').click(), 100)")
        check("then it shows the space", browser.holds_within(f"{LIVE} && {text_at('#epoch')}.includes('tenant-7')"))
        check("and asks no more", not browser.value(asks))
        seen = "document.querySelectorAll('#finish li code').length === 1"
        check("its dead owner", browser.holds_within(seen, 5))
        same("the command that finishes it", browser.value(text_at("#finish li code")), "rme ask --space tenant-7 finish 1")
        browser.open(f"http://127.0.0.1:{server.http}/?space=none")
        check("a space that is not there", browser.holds_within(f"{GONE} && {text_at('#gone')}.includes('none')"))
        server.kill()

    in_browser(look)


def part():
    main_in_folders(try_served, try_spaces, minutes=5)
