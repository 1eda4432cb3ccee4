/** SQL of an operation, in which `:key`, `:amount`, `:process` and `:name` stand for those of the work. */

export const literal = (value) => (typeof value === "number" ? String(Math.trunc(value)) : `'${String(value).replaceAll("'", "''")}'`);

/** The statement of this work. Its values are numbers and names of `a-z0-9_`, so they stand in it as they are. */
export function filled(statement, work) {
  const values = { key: work.key, amount: work.amount, process: work.process, name: work.stepName };
  return statement.replace(/(?<![:\w]):(key|amount|process|name)\b/g, (_, word) => literal(values[word]));
}

export const inOrder = (sql) => (sql === undefined ? [] : typeof sql === "string" ? [sql] : typeof sql === "function" ? [] : sql);
