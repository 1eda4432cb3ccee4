/** One step, or the undo of one. `process` is its process's name, and `place` is `I.STEP`. */
export class Work {
  constructor(mark, place, undo, process, operation, key, amount) {
    Object.assign(this, { mark, place, undo, process, operation, key, amount });
  }

  /** The name of the step in its system: `MARK/I.STEP`. */
  get stepName() {
    return `${this.mark}/${this.place}`;
  }

  /** The name of this work in its system: that of the step, with ` undo` behind it for its undo. Receivers drop what comes twice by it. */
  get name() {
    return this.stepName + (this.undo ? " undo" : "");
  }

  /** The same work with what its system kept of it. */
  with({ process, operation, key, amount }) {
    return new Work(this.mark, this.place, this.undo, process, operation, Number(key), Number(amount));
  }
}

/** Operations that the program's own stores count, such as places in a van. There is nothing to do outside. */
export class ProgramAlone {
  keepsNoWork = true;
  constructor(...operations) {
    this.operations = operations;
  }
  begin() {}
  found() {
    return new Map();
  }
  prepare() {}
  commit() {}
  takeBack() {}
  close() {}
}
