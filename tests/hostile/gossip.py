"""Scripts of gossip made from a seed: gateways that send and take mails, which are lost, doubled, late and out of order."""
import collections

GATEWAYS = (1, 2, 3)
WRITERS = {"a": 1, "b": 2, "c": 2}  # two of one identity, whose points of one time are conflicts
EVENTS = 500
LEAST_EVENTS, LEAST_OF_A_FATE = 10_000, 200
HEAD = ["instrument c counter app requests 1", "instrument g gauge app depth -"]
HEAD += [f"writer {label} shop 00000000-0000-0000-0000-00000000000{instance} 100" for label, instance in WRITERS.items()]
HEAD += [f"gateway {number}" for number in GATEWAYS] + ["begin"]
ASKS = ["report {} app requests 1 sum+ * - *", "report {} app requests 1 sum+ * - -", "report {} app depth - gauge * - *", "conflicts {}"]

Mail = collections.namedtuple("Mail", "source to is_ack")


class Gossip:
    """A script, and what becomes of its mails. A delta that is handed makes the next mail, its Ack."""

    def __init__(self, chance):
        self.chance = chance
        self.mails, self.handed, self.fates = [], [], collections.Counter()
        self.exports, self.clock = 0, 100

    def writer(self):
        return self.chance.choice(list(WRITERS))

    def measure(self):
        attrs = self.chance.choice(["-", "k=1", "k=2", "k=3", "route=x"])
        return f"measure {self.writer()} {self.chance.choice('cg')} {self.chance.randrange(9)} {attrs}"

    def collect(self):
        self.exports += 1
        self.clock += self.chance.randrange(2)
        return f"collect {self.writer()} {self.clock}"

    def restart(self):
        return f"restart {self.writer()} {self.clock - 1}"

    def deliver(self):
        if not self.exports:
            return self.collect()
        return f"deliver {self.chance.randint(max(1, self.exports - 5), self.exports)} {self.chance.choice(GATEWAYS)}"

    def merge(self):
        return f"merge {self.chance.choice(GATEWAYS)} {self.chance.choice(GATEWAYS)}"

    def send(self):
        mail = Mail(self.chance.choice(GATEWAYS), self.chance.choice(GATEWAYS), False)
        self.mails.append(mail)
        return f"send {mail.source} {mail.to}"

    def hand(self):
        """Hands a mail: one of the newest, most often, or any, one that was handed before too."""
        if not self.mails:
            return self.send()
        newest = len(self.mails) - 1
        place = newest - min(newest, int(self.chance.expovariate(0.4))) if self.chance.random() < 0.7 else self.chance.randint(0, newest)
        mail = self.mails[place]
        kind = "Acks" if mail.is_ack else "deltas"
        self.fates[kind, "handed"] += 1
        self.fates[kind, "doubled"] += place in self.handed
        self.fates[kind, "late"] += any(other > place and self.mails[other] == mail for other in self.handed)
        self.handed.append(place)
        if not mail.is_ack:
            self.mails.append(Mail(mail.to, mail.source, True))
        return f"hand {place + 1} {mail.to}"

    def query(self):
        if self.chance.random() < 0.5:
            return f"same {self.chance.choice(GATEWAYS)} {self.chance.choice(GATEWAYS)}"
        return self.chance.choice(ASKS).format(self.chance.choice(GATEWAYS))

    def script(self):
        makers = [self.measure] * 4 + [self.collect, self.deliver] * 2 + [self.send] * 3 + [self.hand] * 6 + [self.merge]
        lines = list(HEAD)
        for _ in range(EVENTS):
            lines.append(self.restart() if self.chance.random() < 0.01 else self.chance.choice(makers)())
            if self.chance.random() < 0.2:
                lines.append(self.query())
        lines += [ask.format(number) for number in GATEWAYS for ask in ASKS] + ["same 1 2", "same 2 3"]
        for place in set(range(len(self.mails))) - set(self.handed):
            self.fates["Acks" if self.mails[place].is_ack else "deltas", "lost"] += 1
        return ("\n".join(lines) + "\n").encode()


def made(chance, count):
    """So many scripts, and how many mails of each kind met each fate in them."""
    scripts, fates = [], collections.Counter()
    for _ in range(count):
        gossip = Gossip(chance)
        scripts.append(gossip.script())
        fates += gossip.fates
    return scripts, fates


def told(count, fates):
    """What was among the events of so many scripts, and what was too seldom there."""
    events = count * EVENTS
    met = {(kind, fate): fates[kind, fate] for kind in ("deltas", "Acks") for fate in ("handed", "doubled", "late", "lost")}
    few = [f"{kind} {fate}: {number}, too few" for (kind, fate), number in met.items() if number < LEAST_OF_A_FATE]
    if events < LEAST_EVENTS:
        few.append("too few events")
    return f"{events} events: " + ", ".join(f"{number} {kind} {fate}" for (kind, fate), number in met.items()), few
