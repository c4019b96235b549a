// ---- the command line: the same words, input, output and statuses as those of the native program

import {readSync, writeSync} from "node:fs";
import process from "node:process";
import {gunzipSync} from "node:zlib";

const [INPUT, OUTPUT, ERRORS] = [0, 1, 2];
// No status of the program: its module can't be run here, or broke off.
const BROKEN = 70;
const MILLISECONDS_TO_WAIT = 5;
const RESTING = new Int32Array(new SharedArrayBuffer(4));

/** Calls a stream of the system, again as long as it says that it isn't ready. */
function patiently(call) {
  for (;;) {
    try {
      return call();
    } catch (error) {
      if (error.code !== "EAGAIN") throw error;
      Atomics.wait(RESTING, 0, 0, MILLISECONDS_TO_WAIT);
    }
  }
}

function readSome(most) {
  const buffer = new Uint8Array(Math.min(most, 1 << 20));
  try {
    return buffer.subarray(0, patiently(() => readSync(INPUT, buffer, 0, buffer.length, null)));
  } catch (error) {
    // So some systems tell the end of a pipe or of a terminal's input.
    if (error.code === "EOF") return buffer.subarray(0, 0);
    throw error;
  }
}

function writeAll(file, bytes) {
  for (let place = 0; place < bytes.length;) {
    place += patiently(() => writeSync(file, bytes, place, bytes.length - place));
  }
}

const write = (file, text) => writeAll(file, new TextEncoder().encode(text));

function helpPage() {
  const rows = (kind, told) => table.filter(([it]) => it === kind).map(told);
  const option = ([, name, values, usual, bounds]) => (
    row(`--${name}`, `${bounds} (${values.replace("..", " to ").replaceAll(",", ", ")}; ${usual})`));
  const row = (left, right) => `  ${left.padEnd(22)} ${right}`;
  return [
    "Simulates a machine that runs tasks ahead of their turn and commits them in order. An image comes from standard",
    "input, and what was asked for goes to standard output.", "", "usage: node fractal.mjs COMMAND [OPTION]... < IMAGE",
    "       node fractal.mjs watch [memory, views K or counts] MODE [OPTION]... < IMAGE", "",
    "Commands:", ...rows("command", ([, name, words, , does]) => row(`${name} ${words}`.trim(), does)), "",
    "Courses of watch:", ...rows("course", ([, name, words, , does]) => row(`${name} ${words}`.trim(), does)), "",
    "Options:",
    ...rows("option", option), "",
    "Options of watch alone:", ...rows("mode-option", option), "",
    "Statuses:", ...rows("status", ([, number, says, advice]) => row(number, says + (advice ? ` (${advice})` : ""))), ""
  ].join("\n");
}

function versionLine() {
  return `fractal ${table.find(([kind]) => kind === "version")[1]}, commit ${made.commit}, as WebAssembly\n`;
}

/** What a person at a terminal is told of a status; the launcher tells it itself. */
function sayStatus(status) {
  const found = table.find(([kind, number]) => kind === "status" && number === String(status));
  if (status === 0 || !found || !process.stderr.isTTY || process.env.FRACTAL_LAUNCHER) return;
  write(ERRORS, `fractal: ${found[2]}${found[3] ? ` (${found[3]})` : ""}: status ${status}.\n`);
}

function programOf(name) {
  return new Program(new WebAssembly.Module(gunzipSync(Buffer.from(modules[name], "base64"))));
}

function main([...words]) {
  if (!words.length || words[0] === "help" || words.includes("--help")) {
    write(OUTPUT, helpPage());
    return 0;
  }
  if (words.length === 1 && words[0] === "--version") {
    write(OUTPUT, versionLine());
    return 0;
  }
  const isWatch = words[0] === "watch";
  const streams = new Streams(readSome, (bytes) => writeAll(OUTPUT, bytes));
  const status = programOf(isWatch ? "watch" : "sim").run(isWatch ? words.slice(1) : words, streams);
  sayStatus(status);
  return status;
}

try {
  process.exitCode = main(process.argv.slice(2));
} catch (error) {
  const why = typeof WebAssembly === "undefined" ? "this engine has no WebAssembly" : error.message;
  write(ERRORS, `fractal: ${why}: status ${BROKEN}.\n`);
  process.exitCode = BROKEN;
}
