/** What can go wrong, each with what to do about it. */

/** Thrown by a handler: its system refuses this work for good. Nothing of it is prepared. */
export class Refused extends Error {}

/** Thrown by a handler: its system can't be reached, or can't say yet. The work is tried again, after a pause that grows. */
export class Unreachable extends Error {}

/** Somebody has a later lease of this work: what this one asks for comes too late, and changes nothing. */
export class Overtaken extends Error {}

/** What the library can't mend by itself. `advice` says what a person does. */
export class SihtolemError extends Error {
  static advice = "";
  constructor(what) {
    super();
    this.name = this.constructor.name;
    this.advice = this.constructor.advice;
    this.message = `${what}: ${this.advice}`;
  }
}

export class ProgramMissing extends SihtolemError {
  static advice = "install tps, or name the program by `program`";
}

/** The program refuses the scenario, or it isn't the one with which the files were made. */
export class ScenarioRefused extends SihtolemError {
  static advice = "mend the scenario; operations and conflicts stay those with which the files were made";
}

/** The nine files of the folder aren't whole, aren't of one moment, or can't be used. */
export class FilesRefused extends SihtolemError {
  static advice = "bring back nine files of one moment, such as those that `backup` made, or mend their permissions where the line says so";
}

/** Another program has the folder for longer than `patience`. */
export class FolderInUse extends SihtolemError {
  static advice = "stop the program that has the folder, and start again";
}

/** `tps serve` ends again and again without an answer, as where the disk fails. */
export class ServeFailed extends SihtolemError {
  static advice = "look at its last line and status in docs/COMMANDS.md, and at disk, memory and limits of the machine";
}

/** The text is no process, or one that can get stuck. Nothing was started. */
export class ProcessRefused extends SihtolemError {
  static advice = "mend the text; `tps check` tells how it gets stuck";
}

/** The files have no room for another process. Nothing was started. */
export class FilesFull extends SihtolemError {
  static advice = "let all end, go on in a fresh folder, and submit it there";
}

/** No participant does this operation. */
export class NoParticipant extends SihtolemError {
  static advice = "add it to a participant, or name it in `ProgramAlone`";
}

/** A system isn't set up so that it can take part. */
export class NotReady extends SihtolemError {
  static advice = "set it up as clients/README.md says, and start again";
}

/** Another driver has begun with the same mark in this system. */
export class Superseded extends SihtolemError {
  static advice = "stop one of the two, or give each files and a mark of its own";
}

/** The scheduler was closed before the process ended. */
export class Closed extends SihtolemError {
  static advice = "submit the same text after the next start: the process goes on, and is not started twice";
}

/** Files and systems aren't of one moment. Nothing was changed. `names` has the work that tells it. */
export class Unsettled extends SihtolemError {
  constructor(what, names) {
    super(`${what}: ${names.join(", ")}`);
    this.names = names;
  }
}

/** The files tell steps as done of which a system has nothing: it was restored to an earlier day, or `tps restart` did them. */
export class WorkLost extends Unsettled {
  static advice = "bring the system to the moment of the files, or do this work by hand and write its names into the system's table of work";
}

/** A system has work that the files don't know: they were restored to an earlier day, or others have their mark. */
export class WorkAhead extends Unsettled {
  static advice = "bring back the files of that moment, or take this work back by hand; fresh files want a mark of their own";
}
