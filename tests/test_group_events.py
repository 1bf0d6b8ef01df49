"""A group of validators that send each other their records, made by svid_script and beside it by a model of plain lists, which answers the same.

Each group has five validators over different stores and with different horizons. The events are those of svid_check/specs/World.antt: a check, a
withdrawal, a tick, a send in either version, a summary, an answer to one, a message taken, other trust bundles, a save, a piece of one, and a restart
from either. Beside these there are the calls that are such events by a law: judgments, a take of a whole record, which several messages make, and a
run of several calls. What is posted may be taken late, more than once, in any order, or never.

The model keeps of each validator its moment and the list of its uses, and works each answer out again from the rules of docs/FORMATS.md and README.md.
Beside that it keeps what the laws of svid_check speak of: all uses that a validator has heard of, with those that expired, and its log. On these it
looks whether the laws hold: a record has the live ones of the uses that it has heard of, each of these was accepted or withdrawn by someone, who took a
send, or the answer to a summary of its own, has heard of all that its maker had, no use that it has heard of is accepted again, and a restart from
pieces is one from when they began that takes each.

`--events N` says how many events there are, and `--seed N` chooses them."""

import hashlib
import os
import random
from collections import Counter
from concurrent.futures import ThreadPoolExecutor
from dataclasses import dataclass, field

import pytest
from scripts import MOST_LISTED, Line, Use, base64url, batch_lines, digits, fault, listed

BEGIN = 1000
# A token expires so many seconds after the one before it.
SPACING = 8
# So many of the latest postings and saves may still be taken.
KEPT = 48
# The stores of the validators, and how many seconds ahead of a validator a message may lie.
MEMBERS = (("indexed", 0), ("runs", 20), ("sorted", 1000), ("keyless", 5), ("sharded", 3))
HEADER = '{"alg":"ES256","kid":"k01","typ":"JWT"}'
# Trust bundles, and as what each token is refused under them that is not refused for its time.
BUNDLES = {
    "known": ('{"a":{"keys":[{"kty":"EC","use":"jwt-svid","kid":"k01","crv":"P-256","x":"AA","y":"AA"}]}}', ""),
    "bare": ('{"a":{"keys":[]}}', "NoKey"),
    "strange": ('{"b":{"keys":[]}}', "UnknownDomain"),
}
NO_BYTES = hashlib.sha256(b"").digest()


@dataclass(frozen=True)
class Token:
    name: str
    text: str
    key: bytes
    exp: int


@dataclass
class Member:
    """A validator: what it knows, as lists."""

    name: str
    kind: str
    validator_id: bytes
    ahead: int
    clock: int = BEGIN
    moment: int = 0
    bundles: str = "known"
    uses: list[Use] = field(default_factory=list)
    # All uses that it has heard of, and what it noted: the number of a posting that it took, or made as a summary.
    told: set[Use] = field(default_factory=set)
    log: list[tuple[str, int]] = field(default_factory=list)

    def raise_to(self, moment: int) -> None:
        self.moment = max(self.moment, moment)
        self.uses = [it for it in self.uses if it.exp > self.moment]

    def tell(self, moment: int, uses: list[Use]) -> None:
        self.raise_to(moment)
        self.uses = sorted({*self.uses, *(it for it in uses if it.exp > self.moment)})

    def carry(self, batch: "Batch") -> None:
        """Is told what a batch tells: its uses, and those of its maker that it says are gone."""
        self.tell(batch.moment, batch.uses)
        self.told |= {it for it in batch.told if it.exp <= batch.moment} | set(batch.uses)
        self.log.append(("took", batch.number))

    def digests(self) -> dict[int, bytes]:
        """The digest of each bucket that has uses."""
        texts: dict[int, bytes] = {}
        for it in self.uses:
            texts[it.key[0]] = texts.get(it.key[0], b"") + it.text()
        return {bucket: hashlib.sha256(text).digest() for bucket, text in texts.items()}


@dataclass(frozen=True)
class Batch:
    """A batch that was posted: its moment, its uses, and the name of its bytes in the script. Then its number, all that its
    maker had been told, and whether it tells all of that: to everyone, or to who made the summary with this number."""

    name: str
    moment: int
    uses: list[Use]
    number: int
    told: frozenset[Use]
    whole: bool
    asked: int | None = None


@dataclass(frozen=True)
class Summary:
    number: int
    name: str
    moment: int
    digests: dict[int, bytes]


@dataclass
class Saved:
    """A save of a validator: what it had heard of by then, and its log. Where it was made in pieces, these too, behind whichever
    use comes next, and whether they are all."""

    owner: str
    batch: Batch
    log: list[tuple[str, int]]
    pieces: list[Batch] = field(default_factory=list)
    after: Use | None = None
    done: bool = True


def message(version: int, moment: int, uses: list[Use]) -> bytes:
    """The text of a batch in either version. Version 1 has no byte for the kind of a use."""
    head = b"JSR" + bytes([version, 1]) + moment.to_bytes(8, "big") + len(uses).to_bytes(4, "big")
    return head + b"".join(it.text()[: 63 + version] for it in uses)


class Group:
    """Five validators, the script of their events, and the answers that are due."""

    def __init__(self, seed: int, is_refused: bool) -> None:
        self.chance = random.Random(seed)
        self.is_refused = is_refused
        self.lines: list[Line] = []
        self.done: Counter[str] = Counter()
        self.tokens: dict[int, Token] = {}
        self.batches: list[Batch] = []
        self.summaries: list[Summary] = []
        self.saves: list[Saved] = []
        self.made: set[Use] = set()
        self.numbers = 0
        self.broken: list[str] = []
        self.named: Counter[str] = Counter()
        for name, (text, _) in BUNDLES.items():
            self.say(f"let {name} " + text.encode().hex())
        self.members = [Member(f"v{n}", kind, bytes([n + 1]) * 16, ahead) for n, (kind, ahead) in enumerate(MEMBERS)]
        for it in self.members:
            self.say(f"bundles k ={it.bundles}")
            self.say(f"validator {it.name} {it.kind} {digits(it.validator_id)} {it.ahead} k sig - s")

    def say(self, line: str, *due: str) -> None:
        self.lines.append((line, list(due)))

    def name(self, kind: str) -> str:
        """A name of this kind for what is posted; the oldest is given again."""
        self.named[kind] += 1
        return f"{kind}{self.named[kind] % (2 * KEPT)}"

    def token(self, moment: int, choice: int) -> Token:
        """One of the tokens that expire about this moment."""
        number = max(0, (moment - BEGIN) // SPACING + self.chance.randrange(choice) - 4)
        found = self.tokens.get(number)
        if found is None:
            found = self.tokens[number] = self.new_token(number)
            self.say(f"let {found.name} {found.text.encode().hex()}")
            for old in [it for it in self.tokens if it % 256 == number % 256 and it != number]:
                del self.tokens[old]
        return found

    def new_token(self, number: int) -> Token:
        """Sixteen tokens in turn have different keys; one of these has no `jti`, so that its key is its own."""
        exp, jti = BEGIN + SPACING * number, f"j{number % 16}" if number % 16 else ""
        payload = f'{{"sub":"spiffe://a/b","aud":"s","exp":{exp},"jti":"{jti}"}}'
        signed = b".".join(base64url(it.encode()) for it in (HEADER, payload)).decode()
        digested = b"\1\0\0\0\1a" + jti.encode() if jti else b"\0" + signed.encode()
        return Token(f"t{number % 256}", f"{signed}.c2ln", hashlib.sha256(digested).digest(), exp)

    def goes_on(self, member: Member) -> int:
        member.clock += self.chance.randrange(4)
        return member.clock

    def number(self) -> int:
        self.numbers += 1
        return self.numbers

    def keep(self, kind: str, version: int, it: Member, uses: list[Use], whole: bool, asked: int | None = None) -> Batch:
        """What a validator tells of its record, and what it had been told."""
        kept = Batch(self.name(kind), it.moment, list(uses), self.number(), frozenset(it.told), whole, asked)
        self.say(f"let {kept.name} {message(version, kept.moment, kept.uses).hex()}")
        return kept

    def post(self, batch: Batch) -> None:
        self.batches = [*self.batches, batch][-KEPT:]

    def holds(self, law: str, is_so: bool) -> None:
        if not is_so:
            self.broken.append(f"behind {sum(self.done.values())} events, {law} does not hold")

    def arrived(self, it: Member, batch: Batch) -> None:
        """A validator noted a batch: if that tells all that its maker had heard of, it has heard of all that."""
        if batch.whole or ("made", batch.asked) in it.log:
            self.holds("answers_tell_all" if batch.asked else "sends_tell_all", batch.told <= it.told)

    def gain(self, it: Member, used: Use) -> None:
        """A use or a withdrawal is made here."""
        it.tell(it.moment, [used])
        it.told.add(used)
        self.made.add(used)

    # What may happen to a validator. Each answers the word for what happened.

    def verdict(self, it: Member, token: Token) -> str:
        """What refuses a token at the validator's moment, or nothing."""
        return "Expired" if token.exp <= it.moment else BUNDLES[it.bundles][1] or self.used(it, token)

    def used(self, it: Member, token: Token) -> str:
        same = [use for use in it.uses if use.key == token.key]
        return "Withdrawn" if any(use.withdrawn for use in same) else "Replayed" if same else ""

    # A call and the answers that are due, and what it did. What it does to the validator is done.

    def checks(self, it: Member, now: int, token: Token, adds: bool = True) -> tuple[list[str], str]:
        it.raise_to(now)
        refusal = self.verdict(it, token)
        if refusal:
            return [f"! {refusal}"], f"refused as {refusal}"
        self.holds("sends_tell_all", all((use.key, use.exp) != (token.key, token.exp) for use in it.told))
        used = Use(token.exp, token.key, it.validator_id, it.moment, False)
        if adds:
            self.gain(it, used)
        return ["= spiffe://a/b", f"= {used.said()}"], "accepted"

    def withdraws(self, it: Member, now: int, token: Token) -> tuple[list[str], str]:
        it.raise_to(now)
        if token.exp <= it.moment:
            return ["! Expired"], "not withdrawn"
        used = Use(token.exp, token.key, it.validator_id, it.moment, True)
        self.gain(it, used)
        return [f"= {used.said()}"], "withdrawn"

    def takes(self, it: Member, now: int, batch: Batch) -> tuple[list[str], str]:
        it.raise_to(now)
        if batch.moment > now + it.ahead:
            return ["! TooFarAhead"], "a batch too far ahead"
        it.carry(batch)
        self.arrived(it, batch)
        return [], "taken"

    def check(self, it: Member) -> str:
        now, token = self.goes_on(it), self.token(it.moment or BEGIN, 28)
        due, word = self.checks(it, now, token)
        self.say(f"check {it.name} {now} ={token.name}", *due)
        return word

    def judge(self, it: Member) -> str:
        now, token = self.goes_on(it), self.token(it.moment or BEGIN, 28)
        due, word = self.checks(it, now, token, adds=False)
        self.say(f"judge_by {it.name} {now} ={token.name} sig", *due)
        return f"judged: {word}"

    def judge_again(self, it: Member) -> str:
        now, token = self.goes_on(it), self.token(it.moment or BEGIN, 28)
        it.raise_to(now)
        refusal = "Expired" if token.exp <= it.moment else self.used(it, token)
        self.say(f"judge_again {it.name} {now} {token.key.hex()} {token.exp}", f"! {refusal}" if refusal else "= ok")
        return "judged again"

    def withdraw(self, it: Member) -> str:
        now, token = self.goes_on(it), self.token(it.moment or BEGIN, 9)
        due, word = self.withdraws(it, now, token)
        self.say(f"withdraw {it.name} {now} {token.key.hex()} {token.exp}", *due)
        return word

    def tick(self, it: Member) -> str:
        it.raise_to(self.goes_on(it))
        self.say(f"tick {it.name} {it.clock}")
        return "ticked"

    def run(self, it: Member) -> str:
        """A few calls as one. Since it would be made again as a whole, no allocation of it is refused."""
        if self.is_refused:
            self.say("refuse 0")
        events, answers = [], []
        for number in range(self.chance.randrange(1, 5)):
            now, kind = self.goes_on(it), self.chance.randrange(4)
            if kind == 0:
                token = self.token(it.moment or BEGIN, 28)
                event, due = f"check/{now}/{token.name}", self.checks(it, now, token)[0]
            elif kind == 1:
                token = self.token(it.moment or BEGIN, 9)
                event, due = f"withdraw/{now}/{token.key.hex()}/{token.exp}", self.withdraws(it, now, token)[0]
            elif kind == 2 and self.batches:
                batch = self.chance.choice(self.batches)
                self.say(f"batch.read m{number} ={batch.name}")
                event, due = f"take/{now}/m{number}", self.takes(it, now, batch)[0] or ["= ok"]
            else:
                it.raise_to(now)
                event, due = f"tick/{now}", ["= ticked"]
            events.append(event)
            answers += due
        self.say(f"run {it.name} {' '.join(events)}", *answers, "= ok")
        return "run"

    def send(self, it: Member) -> str:
        self.say(f"replay.parts {it.name}", *batch_lines(it.moment, it.uses))
        self.post(self.keep("p", 2, it, it.uses, whole=True))
        return "sent"

    def old_send(self, it: Member) -> str:
        if any(use.withdrawn for use in it.uses):
            return "not sent in version 1"
        self.post(self.keep("p", 1, it, it.uses, whole=True))
        return "sent in version 1"

    def sum(self, it: Member) -> str:
        made = Summary(self.number(), self.name("s"), it.moment, it.digests())
        it.log.append(("made", made.number))
        whole = b"".join(made.digests.get(bucket, NO_BYTES) for bucket in range(256))
        self.say(f"replay.summary {made.name} {it.name}")
        self.say(f"summary.show {made.name}", f"= summary {made.moment} {hashlib.sha256(whole).hexdigest()}")
        self.summaries = [*self.summaries, made][-KEPT // 2 :]
        return "summed"

    def answer(self, it: Member) -> str:
        if not self.summaries:
            return "nothing to answer"
        asked, now = self.chance.choice(self.summaries), self.goes_on(it)
        it.raise_to(now)
        line = f"validator.answer {it.name} {now} {asked.name}"
        if asked.moment > now + it.ahead:
            self.say(line, "! TooFarAhead")
            return "a summary too far ahead"
        it.raise_to(asked.moment)
        own = it.digests()
        stale = [use for use in it.uses if own[use.key[0]] != asked.digests.get(use.key[0], NO_BYTES)]
        self.say(line, *batch_lines(it.moment, stale))
        self.post(self.keep("p", 2, it, stale, whole=False, asked=asked.number))
        return "answered"

    def take(self, it: Member) -> str:
        if not self.batches:
            return "nothing to take"
        batch, now = self.chance.choice(self.batches), self.goes_on(it)
        self.say(f"batch.read m ={batch.name}")
        due, word = self.takes(it, now, batch)
        self.say(f"take {it.name} {now} m", *due)
        return word

    def take_record(self, it: Member) -> str:
        """A few batches make one record, which is taken up to the horizon, or nothing of it."""
        if not self.batches:
            return "no record to take"
        batches, now = self.chance.choices(self.batches, k=self.chance.randrange(1, 4)), self.goes_on(it)
        self.say(f"record r {it.kind}")
        for batch in batches:
            self.say(f"batch.read m ={batch.name}")
            self.say("absorb r m")
        it.raise_to(now)
        line = f"take_record {it.name} {now} r"
        if max(batch.moment for batch in batches) > now + it.ahead:
            self.say(line, "! TooFarAhead")
            return "a record too far ahead"
        for batch in batches:
            it.carry(batch)
            self.arrived(it, batch)
        self.say(line)
        return "a record taken"

    def renew(self, it: Member) -> str:
        it.bundles = self.chance.choice(["known"] * 4 + ["bare", "strange"])
        self.say(f"bundles k ={it.bundles}")
        self.say(f"renew {it.name} k")
        return "renewed"

    def save(self, it: Member) -> str:
        self.keep_save(Saved(it.name, self.keep("q", 2, it, it.uses, whole=True), list(it.log)))
        return "saved"

    def begin(self, it: Member) -> str:
        """From here on, the record is saved piece by piece."""
        self.keep_save(Saved(it.name, self.keep("q", 2, it, it.uses, whole=True), list(it.log), done=False))
        return "a save in pieces begun"

    def keep_save(self, saved: Saved) -> None:
        self.saves = [*self.saves, saved][-KEPT // 4 :]

    def piece(self, it: Member) -> str:
        begun = [saved for saved in self.saves if saved.owner == it.name and not saved.done]
        if not begun:
            return self.begin(it)
        saved, most = self.chance.choice(begun), self.chance.randrange(1, 12)
        uses = [use for use in it.uses if saved.after is None or use > saved.after][:most]
        self.say(f"parts_after {it.name} {saved.after.said() if saved.after else '-'} {most}", *batch_lines(it.moment, uses))
        saved.pieces.append(Batch("", it.moment, uses, self.number(), frozenset(it.told), whole=False))
        saved.after = uses[-1] if uses else saved.after
        saved.done = len(uses) < most
        if saved.done:
            had = {use for use in saved.batch.uses if use.exp > it.moment}
            joined = {use for piece in saved.pieces for use in piece.uses if use.exp > it.moment}
            self.holds("saves_lose_nothing", had <= joined <= set(it.uses))
            return "a save in pieces done"
        return "a piece saved"

    def restart(self, it: Member) -> str:
        own = [saved for saved in self.saves if saved.owner == it.name and saved.done]
        if not own:
            return "nothing to restart from"
        saved = self.chance.choice(own)
        # What was begun and not done is given up.
        self.saves = [old for old in self.saves if old.owner != it.name or old.done]
        batch = saved.batch
        it.moment, it.uses, it.told, it.log = batch.moment, list(batch.uses), set(batch.told), list(saved.log)
        self.say(f"record r {it.kind}")
        for part in saved.pieces or [batch]:
            self.say(f"let m {message(2, part.moment, part.uses).hex()}")
            self.say("batch.read m =m")
            self.say("absorb r m")
        for piece in saved.pieces:
            it.carry(piece)
        self.say(f"bundles k ={it.bundles}")
        self.say(f"validator {it.name} of:r {digits(it.validator_id)} {it.ahead} k sig - s")
        if saved.pieces:
            joined = sorted({use for piece in saved.pieces for use in piece.uses if use.exp > saved.pieces[-1].moment})
            self.holds("pieces_are_saves", (it.moment, it.uses) == (saved.pieces[-1].moment, joined))
        noted = set(it.log)
        for posted in self.batches:
            if ("took", posted.number) in noted:
                self.arrived(it, posted)
        return "restarted from pieces" if saved.pieces else "restarted"

    def look(self, it: Member) -> None:
        """What the validator's record has, and which keys it reports."""
        self.holds("records_are_told", it.uses == sorted(use for use in it.told if use.exp > it.moment))
        self.holds("reports_are_exact", it.told <= self.made)
        self.say(f"replay {it.name}", f"= {it.moment}", *listed(it.uses))
        keys: dict[bytes, list[Use]] = {}
        for use in it.uses:
            if not use.withdrawn:
                keys.setdefault(use.key, []).append(use)
        twice = [(key, uses) for key, uses in sorted(keys.items()) if len(uses) > 1]
        if len(twice) > MOST_LISTED:
            whole = b"".join(use.text() for _, uses in twice for use in uses)
            due = [f"= twice {len(twice)} {hashlib.sha256(whole).hexdigest()}"]
        else:
            due = [line for key, uses in twice for line in (f"= twice {digits(key)} {len(uses)}", *listed(uses))]
        self.say(f"replay.report {it.name}", *due)

    def happen(self, events: int) -> None:
        kinds = [self.check] * 10 + [self.take] * 8 + [self.withdraw, self.tick, self.send, self.old_send, self.sum] * 2
        kinds += [self.answer] * 3 + [self.renew, self.save, self.restart, self.judge, self.judge_again, self.run]
        kinds += [self.take_record] * 2 + [self.piece] * 4
        for number in range(events):
            if self.is_refused and number % 8 == 0:
                self.say(f"refuse {self.chance.randrange(12)}")
            it = self.chance.choice(self.members)
            self.done[self.chance.choice(kinds)(it)] += 1
            if number % 16 == 0:
                self.look(it)
        for it in self.members:
            self.look(it)


@pytest.mark.parametrize("is_refused", [False, True], ids=["as it is", "with allocations refused"])
def test_groups_answer_as_the_model(driver, pytestconfig, request, is_refused):
    """With allocations refused, one allocation in some calls is; the call is then made once more, and all answers stay."""
    events, seed = pytestconfig.getoption("events") // (10 if is_refused else 1), pytestconfig.getoption("seed")
    environment = {"LD_PRELOAD": str(request.getfixturevalue("failmalloc"))} if is_refused else {}
    groups = [Group(seed * 1000 + number, is_refused) for number in range(max(1, events // 10_000))]

    def run(group):
        group.happen(-(-events // len(groups)))
        wrong, refused = fault(driver, group.lines, **environment)
        group.lines.clear()
        return wrong, refused

    with ThreadPoolExecutor(len(os.sched_getaffinity(0))) as pool:
        found = list(pool.map(run, groups))
    assert [wrong for wrong, _ in found if wrong] == []
    assert [it for group in groups for it in group.broken] == []
    assert any(refused for _, refused in found) == is_refused, "no allocation was refused"
    done = sum((group.done for group in groups), Counter())
    print(*(f"{count} {word}" for word, count in sorted(done.items())), f"{sum(done.values())} events", sep="\n")
