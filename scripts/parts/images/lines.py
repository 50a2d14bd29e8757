"""The lines `save` and `load`: the smallest image, which refusal comes first, and what a load keeps and replaces."""

from lib.checks import check, main
from lib.worlds import OPENING, SMALLEST, answers, job, lines_of

SMALLEST_OPENING = {"cells": 1, "do": "open", "jobs": 1, "locks": ["bank"], "workers": 1}


# ---- lines


def load_line(held, *names):
    return {"do": "load", "image": held if isinstance(held, str) else held.hex(), "locks": list(names)}


def try_smallest():
    told = answers([], SMALLEST_OPENING, {"do": "save"}, load_line(SMALLEST, "bank"), {"do": "step", "worker": 0},
        {"do": "restart", "worker": 0}, {"do": "step", "worker": 0}, {"do": "step", "worker": 0}, {"do": "save"})
    saved = f'{{"image":"{SMALLEST.hex()}","ok":"save"}}'.encode()
    wanted = [b'{"ok":"open"}', saved, b'{"ok":"load"}', b'{"code":7,"error":"Down"}', b'{"ok":"restart"}',
        b'{"note":["quiet"],"ok":"step"}', b'{"note":["ready"],"ok":"step"}', saved]
    check("the smallest image by lines", told == wanted, told)
    told = answers([], load_line(SMALLEST[:-1], "bank"), load_line(SMALLEST[:4] + b"\x09" + SMALLEST[5:], "bank"), {"do": "save"}, {"do": "history"})
    bad, shut = b'{"code":15,"error":"BadImage"}', b'{"code":3,"error":"NotOpen"}'
    check("cut, and of version 9", told == [bad, bad, shut, shut], told)
    accepted = SMALLEST[:20] + b"\1" + SMALLEST[21:]
    told = answers([], load_line(accepted, "bank"), {"do": "restart", "worker": 0}, {"do": "walk", "worker": 0})
    walk = b'{"end":"ready","notes":[["entered","bank"],["finished","bank",1,0,0],["left","bank"]],"ok":"walk"}'
    check("a number that was begun", told == [b'{"ok":"load"}', b'{"ok":"restart"}', walk], told)


def try_order():
    """A broken image comes before bad names."""
    text = SMALLEST.hex()
    bad_image, bad_shape = b'{"code":15,"error":"BadImage"}', b'{"code":5,"error":"BadShape"}'
    cases = [
        (load_line(SMALLEST[:-1], "Bank"), bad_image),
        (load_line(text[:-1], "Bank"), bad_image),
        (load_line(text.upper(), "bank"), bad_image),
        (load_line("", "bank"), bad_image),
        (load_line(SMALLEST, "Bank"), bad_shape),
        (load_line(SMALLEST, "bank", "shop"), bad_shape),
        (load_line(SMALLEST), bad_shape),
        (load_line(SMALLEST, "bank"), b'{"ok":"load"}'),
    ]
    told = answers([], *[line for line, _ in cases])
    wanted = [answer for _, answer in cases]
    check("15 before 5, each as it is", told == wanted, told)


def try_refused_load():
    """A refused load keeps the world, its names and its report; an accepted one replaces all three."""
    looks = [{"do": "cells", "lock": "bank"}, {"do": "history"}, {"do": "report"}, {"do": "last", "worker": 0}]
    begun = [OPENING, *job(0), *looks]
    told = answers([], *begun, load_line(SMALLEST[:-1], "shop"), *looks, load_line(SMALLEST, "shop", "bank"), *looks,
        load_line(SMALLEST, "shop"), *looks, {"do": "cells", "lock": "shop"})
    before, kept, again, after = told[3:7], told[8:12], told[13:17], told[18:]
    check("a refused load keeps the world, its names and its report", before == kept == again and b"history" in kept[1], told)
    wanted = [b'{"code":11,"error":"NoLock"}', b'{"entries":[],"ok":"history"}',
        b'{"enter":0,"exit":0,"ok":"report","post":0,"recover":0,"section":0}', b'{"last":null,"ok":"last"}',
        b'{"cells":[0],"ok":"cells","settled":true}']
    check("an accepted one replaces all three", after == wanted, after)
    told = answers(["--transcript"], OPENING, load_line(SMALLEST, "shop"), {"do": "save"}, {"do": "crash", "worker": 1})
    wanted = [lines_of(OPENING).strip().replace(b" ", b""), b'{"do":"crash","worker":1}']
    check("a transcript knows neither", told == wanted, told)


def part():
    main(try_smallest, try_order, try_refused_load)
