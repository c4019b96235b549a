// ---- an assembler of RV32I, for sources as GNU as takes them: instructions, what they are short for, and data

const NUMBERS_OF
  = new Map(REGISTERS.flatMap((name, number) => [[name, number], [`x${number}`, number]]).concat([["fp", 8]]));
const [ZERO, RA, T1] = [0, 1, 6];
const invert
  = (names) => Object.fromEntries(Object.entries(names).map(([code, name]) => [name, code.split(" ").map(Number)]));
const CODES = {branch: invert(BRANCHES), load: invert(LOADS), store: invert(STORES), immediate: invert(WITH_IMMEDIATE),
  shift: invert(SHIFTS), register: invert(WITH_REGISTER)};
// An instruction of two registers whose last operand is a number is the one with an immediate.
const ALSO_IMMEDIATE = {
  add: "addi",
  slt: "slti",
  sltu: "sltiu",
  xor: "xori",
  or: "ori",
  and: "andi",
  sll: "slli",
  srl: "srli",
  sra: "srai"
};
const SWAPPED = {bgt: "blt", ble: "bge", bgtu: "bltu", bleu: "bgeu"};
const AGAINST_ZERO = {
  beqz: ["beq", 0],
  bnez: ["bne", 0],
  bgez: ["bge", 0],
  bltz: ["blt", 0],
  blez: ["bge", 1],
  bgtz: ["blt", 1]
};
// What one word is short for: its operands by number, others as they stand.
const SHORT = {
  nop: [0, "addi zero,zero,0"], mv: [2, "addi $0,$1,0"], not: [2, "xori $0,$1,-1"], neg: [2, "sub $0,zero,$1"],
  seqz: [2, "sltiu $0,$1,1"], snez: [2, "sltu $0,zero,$1"], sltz: [2, "slt $0,$1,zero"], sgtz: [2, "slt $0,zero,$1"],
  sgt: [3, "slt $0,$2,$1"], sgtu: [3, "sltu $0,$2,$1"], move: [2, "addi $0,$1,0"], "zext.b": [2, "andi $0,$1,255"],
  j: [1, "jal zero,$0"], ret: [0, "jalr zero,0(ra)"], scall: [0, "ecall"], sbreak: [0, "ebreak"],
};
const NOP = 0x13;

/** A line of a source, which may have a name. */
class Place {
  constructor(source, line) { Object.assign(this, {source, line}); }

  get told() { return this.source.name ? `${this.source.name}:${this.line}` : `Line ${this.line}`; }

  get text() { return this.source.text.split("\n")[this.line - 1].trim(); }
}

// What a sentence cites of a source, which may be as long as the source: the first letters are enough.
const LONG_CITATION = /`([^`]{80})[^`]+`/g;

/** A sentence on a line of a source. */
function refuseLine(place, why) { throw new Refusal(`${place.told}: ${why.replace(LONG_CITATION, "`$1…`")}.`); }

// ---- words of instructions

const signedIn = (value, bits) => value >= -(2 ** (bits - 1)) && value < 2 ** (bits - 1);
const wordI
  = (opcode, kind, rd, one, value) => ((value & 0xfff) << 20 | one << 15 | kind << 12 | rd << 7 | opcode) >>> 0;
const wordR
  = (opcode, kind, high, rd, one, two) => (high << 25 | two << 20 | one << 15 | kind << 12 | rd << 7 | opcode) >>> 0;
const wordU = (opcode, rd, value) => (value << 12 | rd << 7 | opcode) >>> 0;
const wordS = (kind, one, two, value) => (
  (value >> 5 & 127) << 25 | two << 20 | one << 15 | kind << 12 | (value & 31) << 7 | 0x23) >>> 0;
const wordB = (kind, one, two, value) => ((value >> 12 & 1) << 31 | (value >> 5 & 63) << 25 | two << 20 | one << 15
  | kind << 12 | (value >> 1 & 15) << 8 | (value >> 11 & 1) << 7 | 0x63) >>> 0;
const wordJ = (rd, value) => ((value >> 20 & 1) << 31 | (value >> 1 & 1023) << 21 | (value >> 11 & 1) << 20
  | (value >> 12 & 255) << 12 | rd << 7 | 0x6f) >>> 0;
/** The upper part of a number whose lower 12 bits are added as a signed number. */
const upper = (value) => (value + 0x800 >>> 12) & 0xfffff;
const lower = (value) => (value << 20) >> 20;

// ---- statements of a text

/** The text without comments; what is in quotes stays. Lines stay where they are. */
function withoutComments(text) {
  return text.replace(/"(?:\\.|[^"\\\n])*"|'(?:\\.|[^'\\\n])'?|\/\*[\s\S]*?\*\/|#[^\n]*/g, (found) => (
    found[0] === '"' || found[0] === "'" ? found : found.replace(/[^\n]/g, " ")));
}

/** The statements of a source, each with its line: labels, the word and its operands. */
function statementsOf(source) {
  return withoutComments(source.text).split("\n").flatMap((text, number) => splitOutside(text, ";").flatMap((part) => {
    const labels = [], line = new Place(source, number + 1);
    let rest = part.trim();
    for (let found; (found = /^([.\w$]+)\s*:\s*/.exec(rest)); rest = rest.slice(found[0].length)) labels.push(found[1]);
    const assigned = /^([.\w$]+)\s*=\s*(.+)$/.exec(rest);
    if (assigned) return [{line, labels, word: ".set", operands: assigned.slice(1)}];
    const found = /^(\S+)\s*(.*)$/.exec(rest);
    if (!found) return labels.length ? [{line, labels, word: "", operands: []}] : [];
    return [{line, labels, word: found[1].toLowerCase(), operands: splitOutside(found[2], ",").map((it) => it.trim())
      .filter((it, number, all) => it || all.length > 1)}];
  }));
}

/** The parts of a text between signs that stand outside of quotes and brackets. */
function splitOutside(text, sign) {
  const parts = [""];
  let depth = 0;
  for (const [found] of text.matchAll(/"(?:\\.|[^"\\])*"|'(?:\\.|[^'\\])'?|[\s\S]/g)) {
    if (found === "(") depth++;
    if (found === ")") depth--;
    if (found === sign && depth === 0) parts.push("");
    else parts[parts.length - 1] += found;
  }
  return parts;
}

const ESCAPES = {n: 10, t: 9, r: 13, b: 8, f: 12, "\\": 92, '"': 34, "'": 39};

/** The bytes of a text in quotes. */
function bytesInQuotes(text, line) {
  const found = /^"((?:\\.|[^"\\])*)"$/.exec(text);
  if (!found) refuseLine(line, "a text in quotes is wanted");
  const bytes = [];
  for (const [it] of found[1].matchAll(/\\x[0-9a-fA-F]+|\\[0-7]{1,3}|\\.|[^\\]/gu)) {
    if (it[0] !== "\\") bytes.push(...new TextEncoder().encode(it));
    else if (it[1] === "x") bytes.push(parseInt(it.slice(2), 16) & 255);
    else if (it[1] in ESCAPES) bytes.push(ESCAPES[it[1]]);
    else if (/[0-7]/.test(it[1])) bytes.push(parseInt(it.slice(1), 8) & 255);
    else refuseLine(line, `\`${it}\` isn't known in a text`);
  }
  return bytes;
}

// ---- expressions

// As GNU as has them, and not C.
const LEVELS = [["+", "-"], ["|", "&", "^"], ["*", "/", "%", "<<", ">>"]];
const OPERATIONS = {"|": (a, b) => a | b, "^": (a, b) => a ^ b, "&": (a, b) => a & b, "<<": (a, b) => a * 2 ** b,
  ">>": (a, b) => Math.floor(a / 2 ** b), "+": (a, b) => a + b, "-": (a, b) => a - b, "*": (a, b) => a * b,
  "/": (a, b) => Math.trunc(a / b), "%": (a, b) => a % b};
const TOKEN = /\s*(0[xX][0-9a-fA-F]+|0[bB][01]+|\d+[bf](?!\w)|\d+|'(?:\\.|[^'\\])'?|[.\w$]+|<<|>>|[-+*/%&|^~()])/y;

/** A number, in a section where it is an address there: {value, section}. */
class Expression {
  constructor(text, named, line) {
    Object.assign(this, {named, line, tokens: [], place: 0});
    TOKEN.lastIndex = 0;
    for (let found; TOKEN.lastIndex < text.trimEnd().length; this.tokens.push(found[1])) {
      found = TOKEN.exec(text);
      if (!found) refuseLine(line, `\`${text.trim()}\` isn't a number, a label or a sum of these`);
    }
  }

  whole() {
    const value = this.level(0);
    if (this.place < this.tokens.length) refuseLine(this.line, `\`${this.tokens[this.place]}\` isn't allowed here`);
    return value;
  }

  level(depth) {
    if (depth === LEVELS.length) return this.unary();
    let one = this.level(depth + 1);
    while (LEVELS[depth].includes(this.tokens[this.place])) {
      const sign = this.tokens[this.place++];
      one = this.combined(sign, one, this.level(depth + 1));
    }
    return one;
  }

  combined(sign, one, two) {
    if (sign === "-" && one.section === two.section) return {value: one.value - two.value, section: null};
    const section = one.section ?? two.section;
    if (section !== null && !(two.section === null ? "+-".includes(sign) : sign === "+" && one.section === null)) {
      refuseLine(this.line, "addresses can't be reckoned with so");
    }
    if ("/%".includes(sign) && two.value === 0) refuseLine(this.line, "nothing is divided by zero");
    return {value: OPERATIONS[sign](one.value, two.value), section};
  }

  unary() {
    const token = this.tokens[this.place++];
    if (token === "(") {
      const value = this.level(0);
      if (this.tokens[this.place++] !== ")") refuseLine(this.line, "a bracket isn't closed");
      return value;
    }
    if (token === "-" || token === "~" || token === "+") {
      const {value, section} = this.unary();
      if (section !== null) refuseLine(this.line, "addresses can't be reckoned with so");
      return {value: token === "-" ? -value : token === "~" ? ~value : value, section};
    }
    if (token === undefined || /^[-+*/%&|^~)<>]/.test(token)) refuseLine(this.line, "a number or a label is missing");
    return this.atom(token);
  }

  atom(token) {
    if (token[0] === "'")
      return {value: token[1] === "\\" ? ESCAPES[token[2]] ?? token.charCodeAt(2) : token.charCodeAt(1), section: null};
    if (/^0[xXbB]/.test(token)) return {value: Number(token.toLowerCase()), section: null};
    if (/^\d+$/.test(token)) return {value: parseInt(token, token[0] === "0" ? 8 : 10), section: null};
    return this.named(token, this.line);
  }
}
