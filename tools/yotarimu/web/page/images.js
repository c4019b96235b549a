// ---- images: their header, and their instructions as text

const MAGIC = "FRAC", HEADER_BYTES = 32, TASK_BYTES = 20;

/** What an image's header tells; null where the bytes begin with none. */
function headerOf(image) {
  if (image.length < HEADER_BYTES || String.fromCharCode(...image.subarray(0, 4)) !== MAGIC) return null;
  const view = new DataView(image.buffer, image.byteOffset, image.byteLength);
  const word = (place) => view.getUint32(place, true);
  const header = {version: view.getUint16(4, true), isOrdered: view.getUint16(6, true) === 1, textWords: word(8),
    initialBytes: word(12), dataBytes: word(16), windowOffset: word(20), windowWords: word(24), tasks: word(28)};
  header.dataAt = HEADER_BYTES + 4 * header.textWords;
  header.tasksAt = header.dataAt + header.initialBytes;
  return header.tasksAt + TASK_BYTES * header.tasks <= image.length ? {...header, word} : null;
}

/** The initial tasks of an image: entry address, timestamp, three arguments. */
function tasksOf(header) {
  return Array.from({length: header.tasks}, (_, number) => {
    const [entry, ts, ...args] =
      [0, 4, 8, 12, 16].map((place) => header.word(header.tasksAt + TASK_BYTES * number + place));
    return {entry, ts, args};
  });
}

const REGISTERS = [
  "zero", "ra", "sp", "gp", "tp", "t0", "t1", "t2", "s0", "s1", ...[0, 1, 2, 3, 4, 5, 6, 7].map((it) => `a${it}`),
  ...[2, 3, 4, 5, 6, 7, 8, 9, 10, 11].map((it) => `s${it}`), "t3", "t4", "t5", "t6"
];
const BRANCHES = {0: "beq", 1: "bne", 4: "blt", 5: "bge", 6: "bltu", 7: "bgeu"};
const LOADS = {0: "lb", 1: "lh", 2: "lw", 4: "lbu", 5: "lhu"}, STORES = {0: "sb", 1: "sh", 2: "sw"};
const WITH_IMMEDIATE = {0: "addi", 2: "slti", 3: "sltiu", 4: "xori", 6: "ori", 7: "andi"};
const SHIFTS = {"1 0": "slli", "5 0": "srli", "5 32": "srai"};
const WITH_REGISTER = {
  "0 0": "add",
  "0 32": "sub",
  "1 0": "sll",
  "2 0": "slt",
  "3 0": "sltu",
  "4 0": "xor",
  "5 0": "srl",
  "5 32": "sra",
  "6 0": "or",
  "7 0": "and"
};
// A FENCE by what it orders before and behind it: devices' input and output, reads, writes.
const FENCED = ["w", "r", "o", "i"];

/** The immediate numbers of an instruction, by its format. */
const immediates = (word) => ({
  i: word >> 20,
  s: (word >> 25 << 5) | (word >>> 7 & 31),
  b: (word >> 31 << 12) | (word >>> 7 & 1) << 11 | (word >>> 25 & 63) << 5 | (word >>> 8 & 15) << 1,
  u: word >>> 12,
  j: (word >> 31 << 20) | (word >>> 12 & 255) << 12 | (word >>> 20 & 1) << 11 | (word >>> 21 & 1023) << 1,
});

/** A word as an instruction of RV32I, in the words of GNU objdump without aliases; else as `.word`. */
function instructionTold(word, address, place = hex) {
  const [rd, one, two] = [7, 15, 20].map((shift) => REGISTERS[word >>> shift & 31]);
  const kind = word >>> 12 & 7, high = word >>> 25, numbers = immediates(word);
  const named = (name, ...rest) => (name ? `${name} ${rest.join(",")}` : unknownTold(word));
  switch (word & 127) {
    case 0x37: return named("lui", rd, `0x${numbers.u.toString(16)}`);
    case 0x17: return named("auipc", rd, `0x${numbers.u.toString(16)}`);
    case 0x6f: return named("jal", rd, place(address + numbers.j >>> 0));
    case 0x67: return named(kind === 0 && "jalr", rd, `${numbers.i}(${one})`);
    case 0x63: return named(BRANCHES[kind], one, two, place(address + numbers.b >>> 0));
    case 0x03: return named(LOADS[kind], rd, `${numbers.i}(${one})`);
    case 0x23: return named(STORES[kind], two, `${numbers.s}(${one})`);
    case 0x13:
      return kind === 1 || kind === 5 ?
        named(SHIFTS[`${kind} ${high}`], rd, one, `0x${(word >>> 20 & 31).toString(16)}`) :
        named(WITH_IMMEDIATE[kind], rd, one, numbers.i);
    case 0x33: return named(WITH_REGISTER[`${kind} ${high}`], rd, one, two);
    case 0x0f: return fenceTold(word);
    case 0x73: return word === 0x73 ? "ecall" : word === 0x100073 ? "ebreak" : unknownTold(word);
    default: return unknownTold(word);
  }
}

function unknownTold(word) { return `.word 0x${(word >>> 0).toString(16).padStart(8, "0")}`; }

function fenceTold(word) {
  if (word >>> 12 & 7) return unknownTold(word);
  if (word >>> 0 === 0x8330000f) return "fence.tso";
  const set = (bits) => FENCED.filter((_, bit) => bits >> bit & 1).reverse().join("") || "unknown";
  return `fence ${set(word >>> 24 & 15)},${set(word >>> 20 & 15)}`;
}

// More of a text isn't listed at once: a page with all words of the largest one would be slow.
const MOST_LISTED = 8192;

/** A listing of an image that came without one: rows of an address, or null, and a text. Entries have labels. */
function disassembled(image) {
  const header = headerOf(image);
  if (!header) return [];
  const entries = [...new Set(tasksOf(header).map((task) => task.entry))].sort((one, two) => one - two);
  const names
    = new Map(entries.map((entry, number) => [entry, entries.length === 1 ? "entry" : `entry_${number + 1}`]));
  const target = (address) => hex(address) + (names.has(address) ? ` <${names.get(address)}>` : "");
  const rows = [[null, "Disassembled from the image: address, word, instruction."]];
  const count = Math.min(header.textWords, MOST_LISTED);
  for (let number = 0; number < count; number++) {
    const address = TEXT_START + 4 * number, word = header.word(HEADER_BYTES + 4 * number);
    if (names.has(address)) rows.push([null, `${hex(address)} <${names.get(address)}>:`]);
    rows.push([address, `${hex(address)}  ${hex(word)}  ${instructionTold(word, address, target)}`]);
  }
  if (count < header.textWords) rows.push([null, `${plural(header.textWords - count, "word")} more`]);
  return rows;
}

/** The rows of a listing as the tools write it. */
function listingRows(text) {
  return text.split("\n").map((line) => {
    const found = /^([0-9a-f]{8}) {2}[0-9a-f]{8} {2}/.exec(line);
    return [found ? parseInt(found[1], 16) : null, line];
  });
}
