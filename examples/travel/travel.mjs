#!/usr/bin/env node
/** Books trips: a flight, a hotel, a payment and a ticket, on four databases of PostgreSQL.
 *
 *     examples/travel/travel.mjs FOLDER HOST TRIPS
 *
 * HOST is the server's, or the folder of its socket. Call it again after any crash, with as many trips or more: it goes on there. */
import { readFileSync } from "node:fs";
import { Postgres, Scheduler } from "../../clients/node/src/index.mjs";

// The client for PostgreSQL is yours: `pg`, or whatever has its calls `connect`, `query` and `end`.
const { Client } = await import(process.env.PG_CLIENT ?? "pg").then((pg) => pg.default ?? pg);

const BOOKINGS = {
  flights: {
    book_flight: {
      do: "UPDATE flights SET free = free - :amount WHERE number = :key AND free >= :amount",
      undo: "UPDATE flights SET free = free + :amount WHERE number = :key",
      refusal: "the flight is full",
    },
  },
  hotels: {
    book_hotel: {
      do: "UPDATE hotels SET free = free - :amount WHERE number = :key AND free >= :amount",
      undo: "UPDATE hotels SET free = free + :amount WHERE number = :key",
      refusal: "the hotel is full",
    },
  },
  payments: {
    charge: { do: "UPDATE cards SET spent = spent + :amount WHERE number = :key AND spent + :amount <= most", refusal: "the card is refused" },
  },
  tickets: { issue: { do: "INSERT INTO tickets VALUES (:key, :process)" } },
};

const read = (name) => readFileSync(new URL(name, import.meta.url), "utf8");
const trip = (number) => read("trip.process").replaceAll("NUMBER", number).replaceAll("FLIGHT", (number % 8) + 1).replaceAll("HOTEL", (number % 6) + 1);

const [folder, host, trips] = process.argv.slice(2);
const databases = Object.entries(BOOKINGS).map(
  ([database, work]) => new Postgres(() => new Client({ host, user: "postgres", database }), work),
);
const program = process.env.PROGRAM ?? new URL("../../tps", import.meta.url).pathname;
const scheduler = await Scheduler.open(folder, read("travel.toml"), databases, { program });
// All clients place their orders at once, and each waits how its own ends.
const placed = Array.from({ length: Number(trips) }, (_, at) => scheduler.submit(trip(at + 1)));
for (const { name, path, reasons } of await Promise.all(placed)) console.log(name, ...(path.length ? path : ["nothing:", ...reasons]));
await scheduler.close();
