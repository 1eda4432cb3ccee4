/** The nine files of a folder: making them, and copying them. */
import { spawn } from "node:child_process";
import { existsSync } from "node:fs";
import { copyFile, mkdir, mkdtemp, open, readdir, rename, rm } from "node:fs/promises";
import { dirname, join, resolve } from "node:path";
import { Ended } from "./dialogue.mjs";
import { ProgramMissing } from "./errors.mjs";

const NAMES = Array.from({ length: 9 }, (_, number) => `tps.${number}`);

/** Makes the files where the folder has none. They are made beside it and come under its name at once, so a stop leaves no part of them. */
export async function makeFiles(program, folder, scenario) {
  if (NAMES.some((name) => existsSync(join(folder, name)))) return;
  await mkdir(folder, { recursive: true });
  const made = await mkdtemp(`${resolve(folder)}.new.`);
  try {
    await init(program, made, scenario);
    if ((await readdir(folder)).length === 0) await rename(made, folder);
    // The folder has something else of the user's. File 0 comes last, since it makes the files whole.
    else for (const name of [...NAMES].reverse()) await rename(join(made, name), join(folder, name));
  } finally {
    await rm(made, { recursive: true, force: true });
  }
}

function init(program, folder, scenario) {
  return new Promise((done, fail) => {
    const child = spawn(program, ["init"], { cwd: folder, stdio: ["pipe", "pipe", "inherit"] });
    let told = "";
    child.stdin.on("error", () => {});
    child.stdout.on("data", (text) => (told += text));
    child.on("error", (error) => fail(error.code === "ENOENT" ? new ProgramMissing(`${program} is not there`) : error));
    child.on("close", (status) => (status ? fail(new Ended(told.trimEnd(), status)) : status === 0 ? done() : fail(new Ended(told, -1))));
    child.stdin.end(scenario);
  });
}

/** Copies the files into a folder that has none yet. It comes under its name once all are copied and on the disk. */
export async function copyFiles(source, target) {
  if (existsSync(target) && (await readdir(target)).length) throw new Error(`${target} has files already: name a fresh folder for each backup`);
  const made = await mkdtemp(`${resolve(target)}.new.`);
  try {
    for (const name of NAMES) {
      if (!existsSync(join(source, name))) continue;
      await copyFile(join(source, name), join(made, name));
      await sync(join(made, name), "r+");
    }
    await sync(made, "r");
    await rename(made, target);
    await sync(dirname(resolve(target)), "r");
  } finally {
    await rm(made, { recursive: true, force: true });
  }
}

async function sync(path, how) {
  const file = await open(path, how);
  try {
    await file.sync();
  } finally {
    await file.close();
  }
}
