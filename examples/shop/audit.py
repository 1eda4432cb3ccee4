"""Whether the databases and the files of the program tell the same, and what became of each order."""
from collections import Counter
from dataclasses import dataclass

from orders import AT_FIRST, ITEMS, Delivery, order_of

TITLES = ("conflicts 2", "history", "completion", "ends", "causes", "trace", "serial")


@dataclass(frozen=True)
class Fate:
    """The end of a process: its steps, or None where it is active. Files are counted from 1."""

    files: int
    process: int
    name: str
    path: tuple | None

    @property
    def order(self):
        return order_of(self.name)

    @property
    def is_opening(self):
        return self.name == "opening"


def sections(report):
    """The lines of a report by the title above them."""
    found, lines = {}, []
    for line in report:
        if len(found) < len(TITLES) and line == TITLES[len(found)]:
            lines = found.setdefault(line, [])
        else:
            lines.append(line)
    return found


def started(report):
    """The names of the orders and deliveries that were started."""
    names = [line.split(" ")[2] for line in sections(report)["history"] if line.startswith("start ")]
    return [name for name in names if name != "opening"]


def fates(files):
    """What became of each process, in all sets of files."""
    return [fate for number in range(1, files.last + 1) for fate in fates_of(number, files.show(number).splitlines())]


def fates_of(number, report):
    for line in sections(report)["ends"]:
        process, name, end, *steps = line.split(" ")
        yield Fate(number, int(process), name, None if end == "active" else tuple(steps))


def faults(files, databases):
    """What is wrong, in words; nothing if all is well."""
    ends = fates(files)
    orders = [fate for fate in ends if not fate.is_opening]
    return [
        *(f"the report of files {number} is not accepted" for number in range(1, files.last + 1) if files.verify(files.show(number)) != "accepted"),
        *(f"{name} was started {count} times" for name, count in Counter(fate.name for fate in orders).items() if count > 1),
        *(f"{fate.name} is active" for fate in ends if fate.path is None),
        *(f"{fate.name} has the path {fate.path}" for fate in orders if fate.path and fate.path not in fate.order.paths),
        *(f"{name} is pending" for database in databases.all for name in database.pending()),
        *differences(orders, databases),
        *wrong_sums(orders, databases),
    ]


def differences(orders, databases):
    """The rows that stand in the databases and that no step of the files tells, and the other way round."""
    told = {f"{fate.files}/{fate.process}.{step}": fate.order.calls[step] for fate in orders for step in fate.path or ()}
    standing = {name: tuple(call) for database in databases.all for name, *call in database.standing()}
    for name in sorted({*told, *standing}):
        if told.get(name) != standing.get(name):
            yield f"{name} is {told.get(name)} in the files and {standing.get(name)} in the databases"


def wrong_sums(orders, databases):
    """The shelves, the money and the parcels that don't come to what the whole orders make of them."""
    whole = [fate.order for fate in orders if fate.path]
    for item, key in ITEMS.items():
        there, wanted = databases.stock.total(key), AT_FIRST + sum(on_shelf(each) for each in whole if each.item == item)
        if there != wanted or there < 0:
            yield f"{there} {item} on the shelf instead of {wanted}"
    paid, owed = databases.payments.total(), sum(each.price for each in whole if not isinstance(each, Delivery))
    if paid != owed:
        yield f"{paid} is paid instead of {owed}"
    parcels = Counter(key for _, operation, key, _ in databases.parcels.standing() if operation in ("ship", "keep"))
    for each in whole:
        if parcels.pop(each.number, 0) != (not isinstance(each, Delivery)):
            yield f"{each.name} has the wrong number of parcels"
    for number in parcels:
        yield f"a parcel went out for {number}, which is no whole order"
    places = Counter((operation, key) for _, operation, key, _ in databases.parcels.standing() if operation.startswith("place_"))
    for (operation, key), count in places.items():
        if count > 1:
            yield f"{operation} {key} is taken {count} times"


def on_shelf(each):
    """What a whole order or delivery changes on its shelf."""
    return each.count if isinstance(each, Delivery) else -each.count


def told(files, databases, notes):
    """What became of each order, and the sums, as lines for a reader."""
    orders = [fate for fate in fates(files) if not fate.is_opening]
    for fate in orders:
        yield f"files {fate.files}  {fate.name:<12} {ending(fate):<26} {', '.join(notes.get(fate.name, ()))}".rstrip()
    whole = [fate.order for fate in orders if fate.path]
    sold = [each for each in whole if not isinstance(each, Delivery)]
    yield f"{len(orders)} orders and deliveries over {files.last} sets of files, {len(whole)} of them whole, the others left nothing"
    for item, key in ITEMS.items():
        came = sum(each.count for each in whole if isinstance(each, Delivery) and each.item == item)
        went = sum(each.count for each in sold if each.item == item)
        yield f"stock: {AT_FIRST} {item} at first + {came} delivered - {went} sold = {databases.stock.total(key)} on the shelf"
    yield f"payments: {databases.payments.total()} for {len(sold)} whole orders"
    kept = sum(operation == "keep" for _, operation, _, _ in databases.parcels.standing())
    yield f"parcels: {len(sold) - kept} by van + {kept} at the counter = {len(sold)} whole orders"


def ending(fate):
    return " ".join(fate.path or ["nothing"])
