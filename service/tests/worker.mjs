#!/usr/bin/env node
/** A worker of the shop in JavaScript, over the databases of examples/shop.
 *
 *     service/tests/worker.mjs ADDRESS FOLDER NAME [SECONDS]
 *
 * Each payment takes up to SECONDS to prepare, 0 if it isn't said. */
import { join } from "node:path";
import { openDatabase } from "../../clients/tests/sqlite.mjs";
import { Fenced, Worker } from "../../clients/node/src/index.mjs";

const SHOP = {
  "stock.db": {
    reserve: {
      hold: "UPDATE shelves SET free = free - :amount WHERE item = :key AND free >= :amount",
      commit: "UPDATE shelves SET count = count - :amount WHERE item = :key",
      release: "UPDATE shelves SET free = free + :amount WHERE item = :key",
      undo: "UPDATE shelves SET count = count + :amount, free = free + :amount WHERE item = :key",
      refusal: "there are too few",
    },
    deliver: { commit: "UPDATE shelves SET count = count + :amount, free = free + :amount WHERE item = :key" },
  },
  "payments.db": {
    charge: {
      hold: "SELECT 1 FROM cards WHERE card = :key AND most >= :amount",
      commit: "UPDATE cards SET charged = charged + :amount WHERE card = :key",
      refusal: "the card is refused",
    },
  },
  "parcels.db": {
    place_north: {},
    place_south: {},
    ship: { hold: "SELECT 1 WHERE :amount <= 4", refusal: "the courier says no" },
    keep: { hold: "SELECT 1 WHERE abs(random()) % 5 > 0", refusal: "the counter is busy" },
  },
};

class Slow extends Fenced {
  async prepare(work) {
    if (work.operation === "charge") await new Promise((done) => setTimeout(done, Math.random() * seconds * 1000));
    return super.prepare(work);
  }
}

const [address, folder, name, seconds = 0] = process.argv.slice(2);
const databases = await Promise.all(Object.keys(SHOP).map((file) => openDatabase(join(folder, file))));
const worker = new Worker(address, Object.values(SHOP).map((operations, at) => new Slow(databases[at], operations)), { name });
process.on("SIGTERM", async () => {
  await worker.close();
  databases.forEach((database) => database.close());
});
