"""Makes calls of a store for the tests of go/claims, which run over each client.

Its argument is the store's server: postgres or redis.

A line of standard input is a call: its number, the store, the name, and what it takes. A line of
standard output is the answer: the number, and what it returns, or `fault NAME TEXT`.
"""

import sys
import threading
import time

from svid.stores import Claim

if sys.argv[1] == "redis":
    from svid.redis import RedisStore as Kept
    from svid.redis import StoreFault
else:
    from svid.postgres import PostgresStore as Kept
    from svid.postgres import StoreFault

stores = {}
writing = threading.Lock()


def answer(number, *words):
    with writing:
        print(number, *words, flush=True)


def words_of(fault):
    return f"fault {getattr(fault, 'name', 'error')} {str(fault).encode().hex() or '-'}"


def new(group, lasts, margin, back, replicas, *servers):
    """A store without a thread of its own: the tests say when it looks."""
    store = Kept.__new__(Kept)
    terms = int(lasts), int(margin) - int(back), int(back)
    more = []
    if sys.argv[1] == "redis":  # (for how long members compare stands before the servers)
        more, servers = [int(servers[0])], servers[1:]
    store._begin(servers, group, int(replicas), 2.0, terms, *more)
    return store


def end_of(seconds):
    return time.monotonic() + float(seconds)


def open_store(store, end):
    while True:
        state, wait = store._look(end)
        if not wait:
            return state
        if time.monotonic() + wait / 1000 > end:
            raise StoreFault("run")
        time.sleep(wait / 1000)


def found_of(found):
    if isinstance(found, StoreFault):
        return f"{found.name}:{str(found).encode().hex()}"
    return f"{found.owner.hex()}:{found.time}:{found.deaf}"


def claim_of(word):
    key, owner, expires = word.split(":")
    return Claim(bytes.fromhex(key), bytes.fromhex(owner), int(expires))


def call(store, name, seconds="0", *words):
    end = end_of(seconds)
    if name == "open":
        return open_store(store, end)
    if name == "state":
        return store._look(end)[0]
    if name == "put":
        return [found_of(it) for it in store._put_each([claim_of(it) for it in words], end)]
    if name == "withdraw":
        return [store._withdraw(bytes.fromhex(words[0]), int(words[1]), end).hex()]
    if name == "withdrawals":
        these, last = store._withdrawals(bytes.fromhex(words[0][1:]).decode(), end)
        return [last, *(f"{key.hex()}:{expires}" for key, expires in these)]
    store.close()
    return []


def run(number, name, *words):
    try:
        if name == "new":
            stores[words[0]] = new(*words[1:])
            answer(number)
        else:
            answer(number, *call(stores[words[0]], name, *words[1:]))
    except Exception as why:
        answer(number, words_of(why))


for line in sys.stdin:
    threading.Thread(target=run, args=line.split(), daemon=True).start()
