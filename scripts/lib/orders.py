"""Orders of a session, and answers to them by their bytes."""

import json
import re

ONE = [["add", 0, 1]]
STATUS, LAST, COMMIT, RESUME, WITHDRAW, DETACH = (
    {"do": word} for word in ("status", "last", "commit", "resume", "withdraw", "detach")
)


def attach(worker, **more):
    return {"do": "attach", "worker": worker, **more}


def job(do, lock, number, *script, **more):
    """An order `submit` or `enter`."""
    return {"do": do, "lock": lock, "number": number, "script": list(script), **more}


def text(**answer):
    """An answer's bytes."""
    return json.dumps(answer, sort_keys=True, separators=(",", ":")).encode()


def stands(stance, number):
    return text(number=number, ok="attach", stance=stance)


def receipt(worker, number, lock, place, reply):
    return {"lock": lock, "number": number, "place": place, "reply": reply, "worker": worker}


def lock_status(name, cells, owner=None, sections=0, settled=True):
    return {"cells": cells, "name": name, "owner": owner, "sections": sections, "settled": settled}


def worker_status(attached, stance, number, **more):
    return {"attached": attached, "number": number, "stance": stance, **more}


def without_seconds(status):
    """A server's status without the seconds of its workers, each of which has a whole number of them."""
    workers = [dict(worker) for worker in status["workers"]]
    for worker in workers:
        if type(worker["seconds"]) is not int or worker.pop("seconds") < 0:
            raise ValueError(f"no seconds: {status}")
    return {**status, "workers": workers}


def status_bytes(answer):
    """The bytes of a server's status without the seconds of its workers, each of which stand before its stance."""
    told, count = re.subn(rb',"seconds":(0|[1-9]\d*)(?=,"stance":)', b"", answer)
    if count != told.count(b'"stance":'):
        raise ValueError(f"no seconds: {answer!r}")
    return told
