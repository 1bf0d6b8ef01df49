"""A line of standard input is a token, and one of standard output what becomes of it: service.py once FOLDER, or service.py MODE URL.

A line `withdraw TOKEN` withdraws one."""

import sys

import svid

mode, where = sys.argv[1:]
terms = {"audiences": "ledger", "bundles": "example.org.json", "mode": mode, "wait": 60}
if mode == "once":
    terms["state"] = where
elif where.startswith("postgres"):
    from svid.postgres import PostgresStore

    terms["store"] = PostgresStore(where, wait=60)
else:
    from svid.redis import RedisStore

    terms["store"] = RedisStore(where, wait=60)
with svid.Validator(**terms) as validator:
    for line in sys.stdin:
        word, _, token = line.strip().rpartition(" ")
        try:
            if word == "withdraw":
                validator.withdraw(token)
                print("withdrawn", flush=True)
            else:
                print("accepted", validator.check(token).spiffe_id, flush=True)
        except svid.Refused as why:
            print(why.name, flush=True)
        except svid.Unavailable as why:
            print(why, file=sys.stderr)
            print("unavailable", flush=True)
