"""What goes wrong, from a seed."""
import random
import signal
import threading
import time


class Nemesis:
    """Does one thing after the other, and in the end heals all."""

    def __init__(self, seed, gateways, network, disks, proxy, workers):
        self.chance, self.gateways, self.network, self.disks = random.Random(f"nemesis {seed}"), gateways, network, disks
        self.proxy, self.workers, self.done, self.dead = proxy, workers, {}, {}
        self.stop = threading.Event()

    def deeds(self):
        deeds = [self.kills, self.kills, self.ends, self.parts, self.hides, self.pauses, self.delays, self.doubles, self.reorders]
        deeds += [self.lets_die, self.takes_along]
        if self.network.has_loss:
            deeds.append(self.loses)
        if self.disks.mounted:
            deeds.append(self.fills)
        return deeds

    def any(self):
        return self.chance.choice(list(self.gateways))

    def run(self, seconds):
        """Goes on for so long, by the clock; what it does comes from the seed alone."""
        end = time.monotonic() + seconds
        while time.monotonic() < end and not self.stop.is_set():
            deed = self.chance.choice(self.deeds())
            deed()
            name = deed.__name__
            self.done[name] = self.done.get(name, 0) + 1
            time.sleep(self.chance.random() * 0.5)
            self.raise_some()
        self.heal()

    def raise_some(self):
        """Gateways that are down come back, most often."""
        for number in list(self.dead):
            if self.chance.random() < 0.7:
                self.gateways[number].start()
                del self.dead[number]

    def kills(self):
        number = self.any()
        self.gateways[number].kill()
        self.dead[number] = True

    def ends(self):
        number = self.any()
        if number not in self.dead:
            self.gateways[number].stop()
            self.dead[number] = True

    def parts(self):
        """One gateway, and at times each, hears the others no more."""
        for number in self.gateways if self.chance.random() < 0.2 else [self.any()]:
            self.network.cut(number, [other for other in self.gateways if other != number])
        self.later(self.network.heal)

    def hides(self):
        """Neither workers nor Prometheus reach a gateway."""
        self.network.cut(self.any(), [0])
        self.later(self.network.heal)

    def loses(self):
        self.network.lose(self.any(), 0.1 + self.chance.random() * 0.4)
        self.later(self.network.heal)

    def pauses(self):
        gateway = self.gateways[self.any()]
        gateway.signal(signal.SIGSTOP)
        time.sleep(0.1 + self.chance.random() * 0.9)
        gateway.signal(signal.SIGCONT)

    def fills(self):
        number = self.chance.choice(sorted(self.disks.mounted))
        self.disks.fill(number)
        self.later(lambda: self.disks.free(number))

    def lets_die(self):
        self.chance.choice(self.workers).dies.set()

    def takes_along(self):
        """A gateway is cut off, a worker dies right after it pushed there, and the gateway is killed: what that worker was told is nowhere
        but on this one's disk."""
        worker = self.chance.choice(self.workers)
        number = worker.gateways[worker.last]
        if number in self.dead:
            return
        self.network.cut(number, [other for other in self.gateways if other != number])
        taken, end = worker.counts["taken"], time.monotonic() + 1
        while worker.counts["taken"] < taken + 2 and time.monotonic() < end:
            time.sleep(0.005)
        worker.dies.set()
        self.gateways[number].kill()
        self.dead[number] = True
        self.later(self.network.heal)

    def delays(self):
        self.proxy.delay = self.chance.random() * 0.3

    def doubles(self):
        self.proxy.twice = self.proxy.again = self.chance.random() * 0.5

    def reorders(self):
        self.proxy.holds = self.chance.random() * 0.5

    def later(self, heal):
        """Heals after a while, most often; else it stays until the end, or until something else heals it."""
        if self.chance.random() < 0.8:
            time.sleep(0.2 + self.chance.random())
            heal()

    def heal(self):
        self.network.heal()
        for number, gateway in self.gateways.items():
            self.disks.free(number)
            gateway.signal(signal.SIGCONT)
            if not gateway.is_running():
                gateway.start()
        self.dead = {}
        self.proxy.calm()

    def heal_quietly(self):
        """The same where a run has failed: nothing is begun again."""
        self.stop.set()
        self.network.heal()
        for number, gateway in self.gateways.items():
            self.disks.free(number)
            gateway.signal(signal.SIGCONT)
        self.proxy.calm()
