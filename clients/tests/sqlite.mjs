/** A SQLite database for the tests in JavaScript: that of `node:sqlite` where there is one, else Python's, by lines to a child. It answers by promises. */
import { spawn } from "node:child_process";
import { createInterface } from "node:readline";

const CHILD = `
import json, sqlite3, sys
database = sqlite3.connect(sys.argv[1], timeout=10, isolation_level=None)
for line in sys.stdin:
    try:
        cursor = database.execute(json.loads(line))
        names = [it[0] for it in cursor.description or ()]
        told = {"rows": [dict(zip(names, row)) for row in cursor.fetchall()], "changes": cursor.rowcount}
    except sqlite3.Error as error:
        told = {"error": str(error)}
    print(json.dumps(told), flush=True)
`;

class ByPython {
  #waiting = [];

  constructor(path) {
    this.child = spawn("python3", ["-c", CHILD, path], { stdio: ["pipe", "pipe", "inherit"] });
    createInterface(this.child.stdout).on("line", (line) => {
      const told = JSON.parse(line);
      const { done, fail } = this.#waiting.shift();
      told.error ? fail(new Error(told.error)) : done(told);
    });
  }

  exec(text) {
    return new Promise((done, fail) => {
      this.#waiting.push({ done, fail });
      this.child.stdin.write(`${JSON.stringify(text)}\n`);
    });
  }

  prepare(text) {
    return { all: async () => (await this.exec(text)).rows, run: () => this.exec(text) };
  }

  close() {
    this.child.stdin.end();
  }
}

export async function openDatabase(path) {
  const own = await import("node:sqlite").catch(() => null);
  return own ? new own.DatabaseSync(path) : new ByPython(path);
}
