"""Where gateways live: network namespaces of this test's own, each with an address, or addresses of the loopback where a machine lets
nobody make namespaces. Nothing goes beyond them."""
import contextlib
import pathlib
import random
import shutil
import subprocess

HUB = "10.77.0.1"
# A network, mounts and processes of one's own: all of it ends with the process that is the first there.
OWN = ("unshare", "--net", "--mount", "--pid", "--fork", "--kill-child", "--mount-proc")


def called(*words):
    return subprocess.run([str(word) for word in words], capture_output=True, text=True, stdin=subprocess.DEVNULL, timeout=60, check=False)


def done(*words):
    told = called(*words)
    if told.returncode:
        raise OSError(f"{' '.join(map(str, words))}: {told.stderr.strip()}")
    return told.stdout


class Namespaces:
    """A hub, in which this test, its workers and Prometheus run, and a namespace for each gateway, all on one bridge."""

    has_loss = True

    def __init__(self, count):
        self.addresses = {number: f"10.77.0.{10 + number}" for number in range(1, count + 1)}

    def name(self, number):
        return f"g{number}"

    def inside(self, number):
        """The words before a command that is to run where a gateway lives."""
        return ["ip", "netns", "exec", self.name(number)]

    def make(self):
        """The hub is the namespace in which this process is."""
        done("ip", "link", "add", "hub", "type", "bridge")
        done("ip", "addr", "add", f"{HUB}/24", "dev", "hub")
        done("ip", "link", "set", "hub", "up")
        for number, address in self.addresses.items():
            done("ip", "netns", "add", self.name(number))
            done("ip", "link", "add", f"v{number}", "type", "veth", "peer", "name", "eth0", "netns", self.name(number))
            done("ip", "link", "set", f"v{number}", "master", "hub", "up")
            for words in (["link", "set", "lo", "up"], ["addr", "add", f"{address}/24", "dev", "eth0"], ["link", "set", "eth0", "up"]):
                done("ip", "-n", self.name(number), *words)

    def remove(self):
        for number in self.addresses:
            called("ip", "netns", "del", self.name(number))

    def table(self, number, *words):
        done(*self.inside(number), "iptables", "-w", *words)

    def cut(self, number, others):
        """What comes from these no longer reaches a gateway; its own answers to them neither."""
        for other in others:
            self.table(number, "-A", "INPUT", "-s", self.addresses.get(other, HUB), "-j", "DROP")

    def lose(self, number, part):
        self.table(number, "-A", "INPUT", "-m", "statistic", "--mode", "random", "--probability", f"{part:.3f}", "-j", "DROP")

    def heal(self):
        for number in self.addresses:
            self.table(number, "-F")


TRIAL = """mkdir -p /run/netns && mount -t tmpfs tmpfs /run/netns && ip netns add trial &&
ip netns exec trial iptables -A INPUT -m statistic --mode random --probability 0.1 -j DROP"""


def is_there():
    """Why namespaces can't be made here; nothing where they can."""
    for program in ("ip", "iptables", "unshare", "mount"):
        if not shutil.which(program):
            return f"there is no {program}"
    told = called(*OWN, "sh", "-c", TRIAL)
    return f"{told.stderr.strip()} (status {told.returncode})" if told.returncode else ""


def enter():
    """What the first process of a network of its own does there."""
    pathlib.Path("/run/netns").mkdir(exist_ok=True)
    done("mount", "-t", "tmpfs", "tmpfs", "/run/netns")
    done("ip", "link", "set", "lo", "up")


@contextlib.contextmanager
def namespaces(count):
    made = Namespaces(count)
    try:
        made.make()
        yield made
    finally:
        made.remove()


class Disks:
    """A small disk for each gateway's state, where one may be mounted; else a folder, which is never full."""

    def __init__(self, room, count, size="8m"):
        self.folders = {number: pathlib.Path(room) / f"state{number}" for number in range(1, count + 1)}
        self.mounted = set()
        for number, folder in self.folders.items():
            folder.mkdir()
            if not called("mount", "-t", "tmpfs", "-o", f"size={size},mode=700", "tmpfs", folder).returncode:
                self.mounted.add(number)

    def fill(self, number):
        """Takes all the room that is left, but what a seed leaves."""
        with contextlib.suppress(OSError), open(self.folders[number] / "filler", "wb", buffering=0) as file:
            while file.write(bytes(random.choice((512, 4096, 65536)))):
                pass

    def free(self, number):
        (self.folders[number] / "filler").unlink(missing_ok=True)

    def clear(self):
        for folder in self.folders.values():
            for file in folder.iterdir():
                file.unlink()

    def close(self):
        for number in self.mounted:
            called("umount", "-l", self.folders[number])
