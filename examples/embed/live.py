"""A service in Python that keeps a validator of libsvid. In eight threads, it asks which keys may have signed each token, verifies the
signature with them (verify.py), and checks the token. Then a second validator takes the first one's record, renews its trust bundles,
and tells what it accepted since.

Usage: live.py BUNDLES RENEWED TOKENS, where each line of TOKENS is a name and a token; tokens.py writes all three. Needs the package
`cryptography`. LIBSVID names the shared library."""
import sys
import threading
from svid import Refused
from validator import Validator
from verify import verifies

NOW = 1_767_225_600
THREADS = 8


def check_all(who, validator, now, tokens):
    """Checks each token, and prints the answers."""
    for name, token in tokens:
        try:
            answer = "accepted " + validator.check(now, token, verifies)[0]
        except Refused as refused:
            answer = f"refused {refused.args[0]}"
        sys.stdout.write(f"{who}: {name.decode()}: {answer}\n")


def read(name):
    with open(name, "rb") as file:
        return file.read()


def main(bundles, renewed, tokens):
    bundles, renewed = read(bundles), read(renewed)
    tokens = [line.split(b" ") for line in read(tokens).splitlines()]
    with Validator(["ledger"], bundles) as a, Validator(["ledger"], bundles) as b:
        threads = [threading.Thread(target=check_all, args=("a", a, NOW, tokens)) for _ in range(THREADS)]
        for thread in threads:
            thread.start()
        for thread in threads:
            thread.join()
        # The record of a, a piece a call, to b.
        for piece in a.save(room=82):
            b.take(NOW + 1, piece)
        check_all("b, told by a", b, NOW + 1, tokens)
        check_all("b, milliseconds", b, NOW * 1000, tokens)
        b.bundles(renewed)
        check_all("b, renewed", b, NOW + 2, tokens)
        a.bundles(renewed)
        a.take(NOW + 3, b.tell())
        check_all("a, told by b", a, NOW + 3, tokens)
        b.bundles(b"{}")
        check_all("b, no bundles", b, NOW + 3, tokens)
    check_all("a, closed", a, NOW, tokens)


if __name__ == "__main__":
    main(*sys.argv[1:])
