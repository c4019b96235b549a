// ---- from the statements of a source to the bytes of its sections, in two passes: places first, then words

const SECTIONS = [".text", ".rodata", ".srodata", ".data", ".sdata", ".bss", ".sbss"];
const DATA_SIZES = {
  ".byte": 1,
  ".half": 2,
  ".short": 2,
  ".2byte": 2,
  ".hword": 2,
  ".word": 4,
  ".long": 4,
  ".4byte": 4,
  ".int": 4
};
// Directives that change no byte here; those that begin with .cfi_ are for debuggers.
const WITHOUT_EFFECT = [".globl", ".global", ".local", ".type", ".option", ".file", ".ident", ".attribute", ".loc"];
const MOST_SECTION = 16777216;

const isPart = (section, name) => section.name === name || section.name.startsWith(`${name}.`);

class Section {
  constructor(name, source) { Object.assign(this, {name, source, bytes: [], alignment: 1, address: 0, size: 0}); }
}

/** Sources assembled: their `sections`, `labels` by name, and `lines`, by the address of each instruction. */
class Assembly {
  constructor(sources) {
    this.sources = sources;
    this.statements = sources.map(statementsOf);
    this.labels = new Map();
    this.locals = new Map();
    this.sizes = new Map();
    this.lines = new Map();
    this.sections = [];
    for (this.pass of [1, 2]) {
      this.values = new Map();
      this.seen = new Map();
      for (const section of this.sections) section.bytes = [];
      this.statements.forEach((statements, source) => this.followAll(statements, source));
      if (this.pass === 1) this.place();
    }
  }

  /** Each source has sections of its own. */
  followAll(statements, source) {
    this.source = source;
    this.section = this.sectionOf(".text");
    for (const statement of statements) this.follow(statement);
    // GNU as fills sections of code up to their alignment.
    for (this.section of this.sections.filter((it) => it.source === source && isPart(it, ".text"))) this.fillCode(4);
  }

  sectionOf(name) {
    const found = this.sections.find((it) => it.name === name && it.source === this.source);
    if (found) return found;
    this.sections.push(new Section(name, this.source));
    return this.sections.at(-1);
  }

  /** Where each section stands: the text and what is fixed from the one address on, the data from the other. */
  place() {
    for (const section of this.sections) section.size = section.bytes.length;
    let next = TEXT_START;
    for (const name of SECTIONS) {
      if (name === ".data") next = DATA_START;
      for (const section of this.sections.filter((it) => isPart(it, name))) {
        if (!section.size) continue;
        const step = Math.max(4, section.alignment);
        section.address = next = Math.ceil(next / step) * step;
        next += section.size;
      }
    }
  }

  get here() { return {value: this.section.address + this.section.bytes.length, section: this.section}; }

  follow({line, labels, word, operands}) {
    for (const label of labels) this.label(label, line);
    if (!word) return;
    if (word[0] === ".") this.direct(word, operands, line);
    else this.instruct(word, operands, line);
  }

  label(name, line) {
    if (/^\d+$/.test(name)) {
      const places = this.locals.get(name) ?? [];
      const count = this.seen.get(name) ?? 0;
      this.seen.set(name, count + 1);
      places[count] = {offset: this.section.bytes.length, section: this.section};
      this.locals.set(name, places);
    } else {
      if (this.pass === 1 && this.labels.has(name)) refuseLine(line, `the label \`${name}\` is defined twice`);
      this.labels.set(name, {offset: this.section.bytes.length, section: this.section, line});
    }
  }

  // ---- numbers

  number(text, line) { return new Expression(text, (name) => this.named(name, line), line).whole(); }

  named(name, line) {
    if (name === ".") return this.here;
    if (this.values.has(name)) return this.values.get(name);
    const local = /^(\d+)([bf])$/.exec(name);
    if (local) return this.local(local[1], local[2], line);
    const label = this.labels.get(name);
    if (!label && this.pass === 1) return {value: 0, section: this.section, isUnknown: true};
    if (!label) refuseLine(line, `\`${name}\` is defined nowhere`);
    return {value: label.section.address + label.offset, section: label.section};
  }

  local(number, direction, line) {
    const place = (this.seen.get(number) ?? 0) - (direction === "b" ? 1 : 0);
    const found = this.locals.get(number)?.[place];
    if (!found && this.pass === 1 && direction === "f") return {value: 0, section: this.section};
    if (!found) refuseLine(line, `no label \`${number}:\` is ${direction === "b" ? "before" : "after"} this line`);
    return {value: found.section.address + found.offset, section: found.section};
  }

  /** A number that no address decides. */
  constant(text, line) {
    const {value, section, isUnknown} = this.number(text, line);
    if (isUnknown || section !== null) refuseLine(line, `\`${text}\` isn't a number known here`);
    return value;
  }

  constantIn(text, least, most, line) {
    const value = this.constant(text, line);
    const wrapped = value > 0x7fffffff && value <= 0xffffffff && least < 0 ? value - 2 ** 32 : value;
    if (wrapped < least || wrapped > most)
      refuseLine(line, `a number from ${least} to ${most} is wanted, and not ${text}`);
    return wrapped;
  }

  // ---- data

  direct(word, operands, line) {
    const [first = ""] = operands;
    if (word in DATA_SIZES) for (const it of operands) this.datum(it, DATA_SIZES[word], line);
    else if ([".text", ".data", ".bss"].includes(word)) this.section = this.sectionOf(word);
    else if (word === ".section") this.openSection(first, operands, line);
    else if ([".ascii", ".asciz", ".string"].includes(word)) {
      for (const it of operands) this.put([...bytesInQuotes(it, line), ...(word === ".ascii" ? [] : [0])], line);
    } else if ([".zero", ".space", ".skip"].includes(word)) this.fill(operands, line);
    else if (word === ".balign") this.align(this.constantIn(first, 1, 65536, line), operands[1], line);
    else if (word === ".align" || word === ".p2align")
      this.align(2 ** this.constantIn(first, 0, 16, line), operands[1], line);
    else if ([".equ", ".set", ".equiv"].includes(word)) this.set(operands, line);
    else if (word === ".size") this.sizes.set(first, this.number(operands[1] ?? "", line).value);
    else if (!WITHOUT_EFFECT.includes(word) && !word.startsWith(".cfi_")) {
      refuseLine(line, `\`${word}\` isn't known to the assembler of this page`);
    }
  }

  openSection(name, operands, line) {
    const bare = name.replace(/^"|"$/g, "");
    if (!SECTIONS.some((it) => bare === it || bare.startsWith(`${it}.`))) {
      refuseLine(line, `the section ${bare} has no place in an image; ${SECTIONS.join(", ")} have one`);
    }
    this.section = this.sectionOf(bare);
  }

  datum(text, size, line) {
    const {value} = this.number(text, line);
    if (value < -(2 ** (8 * size - 1)) || value >= 2 ** (8 * size))
      refuseLine(line, `${text} has no place in ${size} bytes`);
    this.put(Array.from({length: size}, (_, byte) => Math.floor(value / 2 ** (8 * byte)) & 255), line);
  }

  fill([count = "", byte = "0"], line) {
    const size = this.constantIn(count, 0, MOST_SECTION, line);
    this.put(new Uint8Array(size).fill(this.constant(byte, line) & 255), line);
  }

  align(step, byte, line) {
    if (step & (step - 1)) refuseLine(line, "a power of two is wanted");
    const {section} = this;
    section.alignment = Math.max(section.alignment, step);
    if (isPart(section, ".text") && byte === undefined) this.fillCode(step, line);
    else
      this.put(new Uint8Array(-section.bytes.length & (step - 1)).fill(this.constant(byte ?? "0", line) & 255), line);
  }

  /** Instructions that do nothing, up to a multiple of the section's alignment or of a step. */
  fillCode(step, line = null) {
    const missing = -this.section.bytes.length & ((line ? step : Math.max(step, this.section.alignment)) - 1);
    this.put(new Uint8Array(missing % 4), line);
    for (let place = missing % 4; place < missing; place += 4) this.word(NOP, line);
  }

  set([name = "", text = ""], line) { this.values.set(name, this.number(text, line)); }

  put(bytes, line) {
    const {section} = this;
    if (section.bytes.length + bytes.length > MOST_SECTION)
      refuseLine(line, "a section is larger than an image may have");
    if (/^\.s?bss/.test(section.name) && bytes.some((byte) => byte))
      refuseLine(line, `${section.name} has zeros alone`);
    for (const byte of bytes) section.bytes.push(byte);
  }

  // ---- instructions

  word(word, line) {
    if (this.pass === 2 && line) this.lines.set(this.here.value, line);
    this.put([0, 8, 16, 24].map((shift) => word >>> shift & 255), line);
  }

  instruct(word, operands, line) {
    if (/^\.s?bss/.test(this.section.name)) refuseLine(line, ".bss can't have instructions");
    new Instruction(this, word, operands, line).make();
  }
}

/** An instruction with its operands, as it is written. */
class Instruction {
  constructor(assembly, word, operands, line) { Object.assign(this, {assembly, name: word, operands, line}); }

  refuse(why) { refuseLine(this.line, `\`${[this.name, this.operands.join(",")].join(" ").trim()}\`: ${why}`); }

  want(...counts) {
    if (!counts.includes(this.operands.length)) this.refuse(`it has ${counts.join(" or ")} operands`);
  }

  register(text) {
    const number = NUMBERS_OF.get((text ?? "").trim());
    if (number === undefined) this.refuse(`\`${text ?? ""}\` isn't a register`);
    return number;
  }

  isRegister(text) { return NUMBERS_OF.has(text?.trim()); }

  put(word) { this.assembly.word(word, this.line); }

  also(name, ...operands) { new Instruction(this.assembly, name, operands, this.line).make(); }

  get here() { return this.assembly.here.value; }

  make() {
    const {name, operands} = this, {branch, load, store, immediate, shift, register} = CODES;
    if (name in MADE) MADE[name](this);
    else if (name in SHORT) this.short(...SHORT[name]);
    else if (name in branch) this.branch(branch[name][0], operands);
    else if (name in SWAPPED) this.branch(branch[SWAPPED[name]][0], [operands[1], operands[0], operands[2]]);
    else if (name in AGAINST_ZERO) this.againstZero(...AGAINST_ZERO[name]);
    else if (name in load) this.load(load[name][0]);
    else if (name in store) this.store(store[name][0]);
    else if (name in immediate) this.immediate(immediate[name][0], operands);
    else if (name in shift) this.shift(...shift[name]);
    else if (name in register) this.registers(...register[name]);
    else refuseLine(this.line, `\`${name}\` isn't an instruction of RV32I`);
  }

  short(count, text) {
    this.want(count);
    const [name, rest] = text.split(" ");
    this.also(
      name, ...(rest ? rest.split(",").map((it) => it.replace(/\$(\d)/, (_, place) => this.operands[place])) : []));
  }

  registers(kind, high) {
    this.want(3);
    const [rd, one, two] = this.operands;
    if (!this.isRegister(two) && this.name in ALSO_IMMEDIATE) this.also(ALSO_IMMEDIATE[this.name], rd, one, two);
    else this.put(wordR(0x33, kind, high, this.register(rd), this.register(one), this.register(two)));
  }

  immediate(kind, [rd, one, value]) {
    this.want(3);
    this.put(wordI(0x13, kind, this.register(rd), this.register(one), this.low(value)));
  }

  shift(kind, high) {
    this.want(3);
    const [rd, one, value] = this.operands;
    const places = this.assembly.constantIn(value, 0, 31, this.line);
    this.put(wordI(0x13, kind, this.register(rd), this.register(one), high << 5 | places));
  }

  /** A number of 12 bits, or the lower part of an address. */
  low(text) {
    const part = this.part(text);
    return part ?? this.assembly.constantIn(text, -2048, 2047, this.line);
  }

  /** What `%lo(..)` and its like say; null of other operands. */
  part(text) {
    const found = /^%(hi|lo|pcrel_hi|pcrel_lo)\s*\((.*)\)$/.exec(text.trim());
    if (!found) return null;
    const {value} = this.assembly.number(found[2], this.line);
    switch (found[1]) {
      case "hi": return upper(value);
      case "lo": return lower(value);
      case "pcrel_hi": return upper(this.keep(value - this.here));
      default: return lower(this.assembly.distances?.get(value) ?? 0);
    }
  }

  /** Notes a distance by where its upper part stands, for the lower part. */
  keep(distance) {
    this.assembly.distances ??= new Map();
    this.assembly.distances.set(this.here, distance);
    return distance;
  }

  target(text, bits) {
    const {value} = this.assembly.number(text, this.line), distance = value - this.here;
    if (this.assembly.pass === 1) return 0;
    if (distance % 2 || !signedIn(distance, bits)) this.refuse(`it doesn't reach so far: ${distance} bytes`);
    return distance;
  }

  branch(kind, [one, two, place]) {
    this.want(3);
    this.put(wordB(kind, this.register(one), this.register(two), this.target(place, 13)));
  }

  againstZero(name, isSwapped) {
    this.want(2);
    const [one, place] = this.operands;
    this.also(name, ...(isSwapped ? ["zero", one] : [one, "zero"]), place);
  }

  /** An operand `4(a0)`, `%lo(x)(a0)` or `(a0)`: the number and the register; null of others. */
  place(text) {
    const found = /^(.*)\(\s*(\w+)\s*\)$/s.exec(text.trim());
    if (!found || !this.isRegister(found[2])) return null;
    return [found[1].trim() ? this.low(found[1].trim()) : 0, this.register(found[2])];
  }

  load(kind) {
    this.want(2);
    const [rd, text] = this.operands, place = this.place(text);
    if (place) this.put(wordI(0x03, kind, this.register(rd), place[1], place[0]));
    else this.far(rd, text, (distance) => wordI(0x03, kind, this.register(rd), this.register(rd), distance));
  }

  store(kind) {
    this.want(2, 3);
    const [source, text, through] = this.operands, place = through === undefined && this.place(text);
    if (place) this.put(wordS(kind, place[1], this.register(source), place[0]));
    else {
      if (through === undefined) this.refuse("after a label it needs a register for the address");
      this.far(through, text, (distance) => wordS(kind, this.register(through), this.register(source), distance));
    }
  }

  /** Two instructions: the upper part of a distance to an address, and what takes the lower part. */
  far(rd, text, second) {
    const distance = this.assembly.number(text, this.line).value - this.here;
    this.put(wordU(0x17, this.register(rd), upper(distance)));
    this.put(second(lower(distance)));
  }

  address() {
    this.want(2);
    const [rd, text] = this.operands, number = this.register(rd);
    this.far(rd, text, (distance) => wordI(0x13, 0, number, number, distance));
  }

  call(rd, through) {
    this.want(1);
    const distance = this.assembly.number(this.operands[0], this.line).value - this.here;
    this.put(wordU(0x17, through, upper(distance)));
    this.put(wordI(0x67, 0, rd, through, lower(distance)));
  }

  constantInto() {
    this.want(2);
    const rd = this.register(this.operands[0]);
    const value = this.assembly.constantIn(this.operands[1], -(2 ** 31), 2 ** 32 - 1, this.line) | 0;
    if (signedIn(value, 12)) this.put(wordI(0x13, 0, rd, ZERO, value));
    else {
      this.put(wordU(0x37, rd, upper(value)));
      if (lower(value)) this.put(wordI(0x13, 0, rd, rd, lower(value)));
    }
  }

  upper(opcode) {
    this.want(2);
    const [rd, text] = this.operands;
    this.put(
      wordU(opcode, this.register(rd), this.part(text) ?? this.assembly.constantIn(text, 0, 0xfffff, this.line)));
  }

  jump() {
    this.want(1, 2);
    const [rd, text] = this.operands.length === 1 ? ["ra", this.operands[0]] : this.operands;
    this.put(wordJ(this.register(rd), this.target(text, 21)));
  }

  /** `jalr rs`, `jalr rd, rs`, `jalr rd, 4(rs)`, `jalr rd, rs, 4`; `jr` likewise, without rd. */
  jumpBy(rd, operands) {
    const [text = "", value] = operands;
    const place = value === undefined && !this.isRegister(text) ?
      this.place(text) :
      [value === undefined ? 0 : this.low(value), this.register(text)];
    if (!place) this.refuse("a register is wanted");
    this.put(wordI(0x67, 0, rd, place[1], place[0]));
  }

  jumpRegister() {
    this.want(1, 2, 3);
    const {operands} = this;
    if (operands.length === 1) this.jumpBy(RA, operands);
    else this.jumpBy(this.register(operands[0]), operands.slice(1));
  }

  fence() {
    this.want(0, 2);
    const [before, behind] = this.operands.length ? this.operands : ["iorw", "iorw"];
    this.put(wordI(0x0f, 0, ZERO, ZERO, this.set(before) << 4 | this.set(behind)));
  }

  set(text) {
    if (!/^i?o?r?w?$/.test(text) || !text) this.refuse("it orders some of i, o, r and w, in this order");
    return FENCED.reduce((bits, sign, bit) => bits | (text.includes(sign) ? 1 << bit : 0), 0);
  }
}

/** A fixed word. */
const fixed = (word) => (it) => {
  it.want(0);
  it.put(word);
};

const MADE = {
  lui: (it) => it.upper(0x37), auipc: (it) => it.upper(0x17), jal: (it) => it.jump(), jalr: (it) => it.jumpRegister(),
  jr: (it) => {
    it.want(1, 2);
    it.jumpBy(ZERO, it.operands);
  },
  li: (it) => it.constantInto(),
  la: (it) => it.address(), lla: (it) => it.address(),
  call: (it) => it.call(RA, RA), tail: (it) => it.call(ZERO, T1),
  fence: (it) => it.fence(), "fence.tso": fixed(0x8330000f), ecall: fixed(0x73), ebreak: fixed(0x100073),
};
