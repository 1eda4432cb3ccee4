"""What the shop sells, and its orders and deliveries as processes."""
import random
from dataclasses import dataclass
from functools import cached_property

ITEMS = {"tea": 1, "coffee": 2, "cocoa": 3}
PRICES = {"tea": 20, "coffee": 15, "cocoa": 10}
AT_FIRST = 20
VANS = ("north", "south")
PLACES = 20


def scenario(processes=""):
    """The operations of the shop and their conflicts, which are by key: by item, and by place in a van. Two reservations don't conflict:
    where both took effect, there was enough for both."""
    operations = [("charge", 1, "add"), ("ship", 2, "add"), ("keep", 3, "add"), ("deliver", 0, "add"), ("reserve", 0, "take")]
    conflicts = [("deliver", "reserve")]
    for subsystem, van in enumerate(VANS, 6):
        operations.append((f"place_{van}", subsystem, "hold"))
        conflicts.append((f"place_{van}", f"place_{van}"))
    tables = [f'[[op]]\nname = "{name}"\nsubsystem = {subsystem}\nverb = "{verb}"' for name, subsystem, verb in operations]
    pairs = ", ".join(f'["{one}", "{other}", "key"]' for one, other in conflicts)
    return f'version = 2\nconflicts = [{pairs}]\nprocesses = "{processes}"\n' + "\n".join(tables) + "\n"


def opening(shelves, places):
    """The first process of fresh files: it brings over the shelves, a count by item, and the places, (operation, key, order)."""
    steps = [f"c {item} deliver {ITEMS[item]} {count}" for item, count in shelves.items()]
    steps += [f"c {operation}_{key} {operation} {key} {order}" for operation, key, order in places]
    return f"process opening {' '.join(steps)} end"


@dataclass(frozen=True)
class Delivery:
    """Goods for a shelf. They have come, so nobody takes that back."""

    number: int
    item: str
    count: int
    called_off = False
    paths = (("unload",),)

    @property
    def name(self):
        return f"delivery_{self.number}"

    @cached_property
    def calls(self):
        """What each step calls: its operation, key and amount."""
        return {"unload": ("deliver", ITEMS[self.item], self.count)}

    @property
    def process(self):
        return f"process {self.name} r unload {spell(self.calls['unload'])} end"


@dataclass(frozen=True)
class Order:
    """Goods that are reserved and paid, and then go by van, or are kept at the counter."""

    number: int
    item: str
    count: int
    card: int
    van: str
    place: int
    called_off: bool
    paths = (("reserve", "pay", "place", "ship"), ("reserve", "pay", "keep"))

    @property
    def name(self):
        return f"order_{self.number}"

    @property
    def price(self):
        return self.count * PRICES[self.item]

    @cached_property
    def calls(self):
        """What each step calls: its operation, key and amount."""
        return {
            "reserve": ("reserve", ITEMS[self.item], self.count),
            "pay": ("charge", self.card, self.price),
            "place": (f"place_{self.van}", self.place, self.number),
            "ship": ("ship", self.number, self.count),
            "keep": ("keep", self.number, self.count),
        }

    @property
    def process(self):
        reserve, pay, place, ship, keep = map(spell, self.calls.values())
        return (
            f"process {self.name} c reserve {reserve} p pay {pay}"
            f" choose c place {place} p ship {ship} or r keep {keep} tries 8 done end"
        )


def spell(call):
    return " ".join(map(str, call))


def order_of(name):
    return order(int(name.split("_")[1]))


def order(number):
    """What comes in as number `number`: always the same. Each fifth is a delivery."""
    chance = random.Random(number)
    item = chance.choice(list(ITEMS))
    if number % 5 == 0:
        return Delivery(number, item, chance.randint(8, 16))
    return Order(
        number,
        item,
        count=chance.randint(1, 5),
        card=chance.choice([1, 1, 1, 2, 2, 3, 3, 4, 5]),
        van=chance.choice(VANS),
        place=chance.randint(1, PLACES),
        called_off=chance.random() < 0.1,
    )
