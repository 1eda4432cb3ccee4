"""Three databases of a shop, which take part by the library: what each operation holds back, and what it does once it took effect.

Each keeps the work of the steps in a table of the library, so what there is can be compared with what the files tell.
"""
import os
import sys

TOP = os.path.dirname(os.path.dirname(os.path.dirname(os.path.realpath(__file__))))
sys.path.insert(0, f"{TOP}/clients/python")

from sihtolem import Held, Sqlite

HASTY = os.environ.get("SHOP_HASTY") == "1"


class Database(Sqlite):
    file = ""
    tables = ""
    held = {}

    def __init__(self, folder):
        super().__init__(f"{folder}/{self.file}", self.held, set_up=self.tables)

    def prepare(self, work):
        super().prepare(work)
        if HASTY:
            self.commit(work)

    def pending(self):
        """The names of the steps of which work is pending."""
        return [name for name, in self.read("SELECT mark || '/' || place FROM sihtolem_work WHERE state IN ('prepared', 'undo prepared')")]

    def standing(self):
        """The committed steps that aren't undone: (name, operation, key, amount)."""
        return self.read("SELECT mark || '/' || place, operation, key, amount FROM sihtolem_work WHERE state = 'committed' ORDER BY rowid")


class Stock(Database):
    """The shelves, by item. What is pending to go is gone for others, and what is pending to come isn't there yet."""

    file = "stock.db"
    tables = "CREATE TABLE IF NOT EXISTS shelves (item INTEGER PRIMARY KEY, count INTEGER NOT NULL, free INTEGER NOT NULL)"
    held = {
        "reserve": Held(
            hold="UPDATE shelves SET free = free - :amount WHERE item = :key AND free >= :amount",
            commit="UPDATE shelves SET count = count - :amount WHERE item = :key",
            release="UPDATE shelves SET free = free + :amount WHERE item = :key",
            undo="UPDATE shelves SET count = count + :amount, free = free + :amount WHERE item = :key",
            refusal="there are too few",
        ),
        "deliver": Held(commit="UPDATE shelves SET count = count + :amount, free = free + :amount WHERE item = :key"),
    }

    def open_shelf(self, item, count):
        """What is on the shelf when the shop opens for the first time."""
        self.read("INSERT OR IGNORE INTO shelves VALUES (?, ?, ?)", (item, count, count))

    def total(self, item):
        return self.read("SELECT count FROM shelves WHERE item = ?", (item,))[0][0]


class Payments(Database):
    """The money that was charged, by card. A card has a limit for one charge."""

    file = "payments.db"
    tables = """
        CREATE TABLE IF NOT EXISTS cards (card INTEGER PRIMARY KEY, most INTEGER NOT NULL, charged INTEGER NOT NULL);
        INSERT OR IGNORE INTO cards VALUES (1, 500, 0), (2, 500, 0), (3, 500, 0), (4, 90, 0), (5, 30, 0);
    """
    held = {
        "charge": Held(
            hold="SELECT 1 FROM cards WHERE card = :key AND most >= :amount",
            commit="UPDATE cards SET charged = charged + :amount WHERE card = :key",
            refusal="the card is refused",
        )
    }

    def __init__(self, folder):
        super().__init__(folder)
        self.on_charge = lambda order: None

    def prepare(self, work):
        super().prepare(work)
        self.on_charge(work.process)

    def total(self):
        return self.read("SELECT SUM(charged) FROM cards")[0][0]


class Parcels(Database):
    """The places in the vans by the orders that have them, the parcels that went by van and those that are kept at the counter, by order. The
    counter is busy now and then, and a van takes four at most. The places are counted by the program."""

    file = "parcels.db"
    held = {
        "place_north": Held(),
        "place_south": Held(),
        "ship": Held(hold="SELECT 1 WHERE :amount <= 4", refusal="the courier says no"),
        "keep": Held(hold="SELECT 1 WHERE abs(random()) % 5 > 0", refusal="the counter is busy"),
    }


class Databases:
    """The three of a folder."""

    def __init__(self, folder):
        self.all = [kind(folder) for kind in (Stock, Payments, Parcels)]
        self.stock, self.payments, self.parcels = self.all
