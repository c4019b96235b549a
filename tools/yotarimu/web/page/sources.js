// ---- from a source to an image, by its lines `# image:`

const MOST_TEXT_WORDS = 65536, MOST_WINDOW = 4096, MOST_TASKS = 65536, MOST_VALUE = 0xffffffff;
const FORMS = {root: "root ordered` or `# image: root unordered", data: "data BYTES", window: "window LABEL [WORDS]",
  task: "task LABEL [ts N] [args A [B [C]]]", version: "version 1` or `# image: version 2"};

/** The lines of a source that describe the image, each with its words. */
function descriptionOf(source) {
  return source.text.split("\n").flatMap((text, number) => {
    const found = /^\s*#+\s*image\s*:(.*)/i.exec(text);
    return found ? [{line: new Place(source, number + 1), words: found[1].trim().split(/\s+/).filter(Boolean)}] : [];
  });
}

/** What the source's lines say of the image, over what was assembled. */
class Described {
  constructor(assembly) {
    Object.assign(this, {assembly, isOrdered: true, version: 1, tasks: [], window: [0, 0], seen: new Map()});
    this.dataBytes = Math.ceil(sizeOfData(assembly) / 4) * 4;
    for (const it of assembly.sources.flatMap(descriptionOf)) this.follow(it);
    const window = this.seen.get("window");
    if (window) this.window = this.windowOf(window);
    if (!this.tasks.length)
      throw new Refusal("No line names an initial task: `# image: task LABEL [ts N] [args A [B [C]]]`.");
  }

  follow(it) {
    const {line, words} = it, [word = ""] = words;
    if (!Object.hasOwn(FORMS, word))
      refuseLine(line, `\`${word}\` isn't a description; ${Object.keys(FORMS).join(", ")} do`);
    if (word !== "task" && this.seen.has(word)) refuseLine(line, `a second line on \`${word}\``);
    this.seen.set(word, it);
    if (word === "root") this.isOrdered = this.oneOf(it, ["ordered", "unordered"]) === "ordered";
    if (word === "version") this.version = Number(this.oneOf(it, ["1", "2"]));
    if (word === "data") this.dataBytes = this.size(it);
    if (word === "task") this.tasks.push(this.task(it));
  }

  misshapen({line, words: [word]}) { refuseLine(line, `this isn't \`# image: ${FORMS[word]}\``); }

  oneOf(it, values) {
    if (it.words.length !== 2 || !values.includes(it.words[1])) this.misshapen(it);
    return it.words[1];
  }

  number(text, what, most, line) {
    const value = /^(0[xX][0-9a-fA-F]{1,8}|\d{1,10})$/.test(text) ? Number(text) : NaN;
    if (!(value <= most))
      refuseLine(line, `${what} is a number from 0 to ${most}, in decimal or after 0x, and not \`${text}\``);
    return value;
  }

  size(it) {
    if (it.words.length !== 2) this.misshapen(it);
    const size = this.number(it.words[1], "the data size", MOST_SECTION, it.line), own = sizeOfData(this.assembly);
    if (size < own) refuseLine(it.line, `the sections of data have ${own} bytes, which is more than ${size}`);
    return size;
  }

  labelOf(name, sections, what, line) {
    const label = this.assembly.labels.get(name);
    if (!label) refuseLine(line, `no label \`${name}\``);
    if (!sections.some((it) => isPart(label.section, it))) {
      refuseLine(line, `the label \`${name}\` isn't in the ${what}`);
    }
    return label.section.address + label.offset;
  }

  windowOf(it) {
    if (it.words.length < 2 || it.words.length > 3) this.misshapen(it);
    const [, name, told] = it.words, offset = this.labelOf(name, SECTIONS.slice(3), "data", it.line) - DATA_START;
    if (offset % 4)
      refuseLine(it.line, `the label \`${name}\` isn't at a multiple of 4: put \`.balign 4\` above it`);
    const words = told === undefined ? Math.ceil((this.assembly.sizes.get(name) ?? 0) / 4)
      : this.number(told, "the number of words", MOST_WINDOW, it.line);
    if (told === undefined && !(words > 0 && words <= MOST_WINDOW)) this.misshapen(it);
    if (offset + 4 * words > this.dataBytes)
      refuseLine(it.line, `the window ends after the data, which has ${this.dataBytes} bytes`);
    return [offset, words];
  }

  task(it) {
    const {line} = it, words = it.words.slice(1), [label] = words;
    if (!label) this.misshapen(it);
    const task = {entry: this.labelOf(label, [".text"], "text", line), ts: 0, args: [0, 0, 0]};
    let rest = words.slice(1);
    if (rest[0] === "ts") {
      task.ts = this.number(rest[1] ?? "", "the timestamp", MOST_VALUE, line);
      rest = rest.slice(2);
    }
    if (rest[0] === "args") {
      if (rest.length < 2 || rest.length > 4) refuseLine(line, "`args` has one to three numbers or labels after it");
      rest.slice(1).forEach((text, place) => { task.args[place] = this.argument(text, line); });
      rest = [];
    }
    if (rest.length) this.misshapen(it);
    return task;
  }

  argument(text, line) {
    if (!/^[A-Za-z_]/.test(text)) return this.number(text, "an argument", MOST_VALUE, line);
    return this.labelOf(text, SECTIONS, "image", line);
  }
}

const sectionsAs
  = (assembly, names) => assembly.sections.filter((it) => it.size && names.some((name) => isPart(it, name)));

/** The bytes from a place on that these sections have. */
function bytesFrom(start, sections) {
  const end = Math.max(start, ...sections.map((it) => it.address + it.size));
  const bytes = new Uint8Array(end - start);
  for (const it of sections) bytes.set(it.bytes, it.address - start);
  return bytes;
}

function sizeOfData(assembly) {
  return Math.max(0, ...sectionsAs(assembly, SECTIONS.slice(3)).map((it) => it.address + it.size - DATA_START));
}

/** Sources in assembly, with the same ends of lines whatever system they come from. */
function assembled(...sources) {
  return new Assembly(sources.map(({name, text}) => ({name, text: text.replace(/\r\n?/g, "\n")})));
}

function imageOf(assembly) {
  const told = new Described(assembly);
  const own = bytesFrom(TEXT_START, sectionsAs(assembly, SECTIONS.slice(0, 3)));
  const textBytes = joined([own], Math.ceil(own.length / 4) * 4),
        data = bytesFrom(DATA_START, sectionsAs(assembly, [".data", ".sdata"]));
  if (textBytes.length / 4 > MOST_TEXT_WORDS)
    throw new Refusal(`${textBytes.length / 4} words of text are more than an image may have.`);
  if (told.tasks.length > MOST_TASKS) throw new Refusal("These are more initial tasks than an image may have.");
  const words = [textBytes.length / 4, data.length, told.dataBytes, ...told.window, told.tasks.length];
  const header = new DataView(new ArrayBuffer(HEADER_BYTES));
  [...MAGIC].forEach((sign, place) => header.setUint8(place, sign.charCodeAt(0)));
  header.setUint16(4, told.version, true);
  header.setUint16(6, told.isOrdered ? 1 : 0, true);
  words.forEach((word, place) => header.setUint32(8 + 4 * place, word, true));
  const tasks = new Uint32Array(told.tasks.flatMap(({entry, ts, args}) => [entry, ts, ...args]));
  const parts = [new Uint8Array(header.buffer), textBytes, data, new Uint8Array(tasks.buffer)];
  return joined(parts, parts.reduce((size, part) => size + part.length, 0));
}

/** The listing of sources: labels, instructions with their lines, and labels of data. */
function listingOf(assembly) {
  const names = assembly.sources.map(({name}) => name).join(", ");
  const labels = [...assembly.labels].filter(([label]) => !label.startsWith(".L"))
    .map(([label, it]) => [it.section.address + it.offset, label]).sort(([one], [two]) => one - two);
  const labelled
    = (address) => labels.filter(([it]) => it === address).map(([, label]) => [null, `${hex(address)} <${label}>:`]);
  const rows = [[null, `What stands where in image.bin, made of ${names}: address, word, instruction, source line.`]];
  for (const section of sectionsAs(assembly, [".text"])) {
    for (let place = 0; place + 4 <= section.size; place += 4) {
      const address = section.address + place;
      rows.push(...labelled(address), [address, instructionRow(assembly, section, place)]);
    }
  }
  const ofData = new Set(labels.map(([address]) => address).filter((address) => address >= DATA_START));
  return [...rows, ...[...ofData].flatMap(labelled)];
}

function instructionRow({lines}, section, place) {
  const address = section.address + place, line = lines.get(address);
  const word = section.bytes.slice(place, place + 4).reduceRight((sum, byte) => sum * 256 + byte, 0);
  const told = `${hex(address)}  ${hex(word)}  ${instructionTold(word, address)}`;
  return line ? `${told.padEnd(48)} | ${line.told} | ${line.text}` : told;
}
