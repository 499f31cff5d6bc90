"""A gateway: gateway.py PORT ID. Of the exports at the broker each goes to one gateway, which takes it and tells the others by
messages, as bytes: each carries what its receiver has not acknowledged. The export is acknowledged at the broker once a message to each
of the others has it. It ends, and prints its table, once each gateway has all that the workers counted."""
import sys
import time

from resp import Redis
from shared import ALL, COUNTED, DONE, EXPORTS, GROUP, INBOX, NAME, PEERS, SCOPE, SECONDS, SERVICE, UNIT, Line, entries
from kotskhin import Code, Export, Gateway, Message, Refused

# An export that another gateway read so long ago and did not acknowledge: it is gone, or slow. Then the export comes twice.
IDLE_MILLISECONDS = 300


def has_all(redis, gateway):
    """Whether it holds the last collection of each incarnation of each worker."""
    if redis("GET", ALL) is None:
        return False
    told = redis("HGETALL", COUNTED)
    for incarnation, last in zip(told[::2], told[1::2]):
        instance, start = map(int, incarnation.split())
        try:
            if gateway.newest(SERVICE, instance, start) < int(last.split()[0]):
                return False
        except Refused as refused:
            if refused.code != Code.NO_POINT:
                raise
            return False
    return True


def main():
    port, me = int(sys.argv[1]), int(sys.argv[2])
    redis = Redis(port, SECONDS)
    line = Line(redis, seed=100 + me)
    gateway = Gateway(me)
    redis("SADD", PEERS, me)
    # A gateway that comes late: what was acknowledged before nobody tells again, and stands in the log.
    for _, fields in redis("XRANGE", EXPORTS, "-", "+"):
        gateway.take(Export.decode(fields[1]))
    seen, end = "0", time.monotonic() + SECONDS
    while time.monotonic() < end:
        came = entries(redis("XREADGROUP", "GROUP", GROUP, me, "COUNT", 10, "BLOCK", 20, "STREAMS", EXPORTS, ">"))
        came += entries([[EXPORTS, redis("XAUTOCLAIM", EXPORTS, GROUP, me, IDLE_MILLISECONDS, "0", "COUNT", 10)[1]]])
        for _, export in came:
            gateway.take(Export.decode(export))
        for peer in [int(one) for one in redis("SMEMBERS", PEERS) if came]:
            if peer != me:
                line.send(INBOX(peer), gateway.send(peer).encode())
        line.flush()
        for entry, _ in came:
            redis("XACK", EXPORTS, GROUP, entry)
        for seen, message in entries(redis("XREAD", "COUNT", 100, "STREAMS", INBOX(me), seen)):
            hear(line, gateway, Message.decode(message))
        if has_all(redis, gateway):
            redis("SADD", DONE, me)
            if redis("SCARD", DONE) == redis("SCARD", PEERS):
                print(gateway.sum(SCOPE, NAME, UNIT), end="")
                return
    sys.exit(f"gateway {me} never had all")


def hear(line, gateway, message):
    """Hands over a message, and sends its answer, which makes later messages shorter."""
    answer = gateway.hand(message)
    if answer:
        line.send(INBOX(answer.envelope()[1]), answer.encode())


if __name__ == "__main__":
    main()
