"""Two recordings, one collection, one delivery, one table: the script of examples/first.otm, in Python."""
from kotskhin import COUNTER, Attributes, Code, Gateway, Plan, Refused, Writer

writer = Writer(Plan([("app", "requests", "1", COUNTER)]), "shop", 1, 100)
none = Attributes()
writer.measure(0, none, 3)
writer.measure(0, none, 4)
try:
    writer.measure(0, none, -1)
    raise SystemExit("a counter took a value below 0")
except Refused as refused:
    assert refused.code == Code.NEGATIVE

gateway, other = Gateway(1), Gateway(2)
export = writer.collect(200)
gateway.take(export)
other.take(export)
other.merge(gateway)
print(other.sum("app", "requests", "1"), end="")
