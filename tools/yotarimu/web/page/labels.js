// ---- the labels of an image's addresses, by its listing

/** Labels of addresses, of the text and of the data, and where in the sources instructions stand. */
class Labels {
  /** From the rows of a listing: an address, or null, and a text. Of two labels at one address the first counts. */
  constructor(rows) {
    this.names = new Map();
    this.sources = new Map();
    this.sourceTexts = new Map();
    this.isKnown = rows.length > 0;
    for (const [address, text] of rows) this.read(address, text);
    this.places = [...this.names.keys()].sort((one, two) => one - two);
  }

  read(address, row) {
    const label = /^([0-9a-f]{8}) <(.+)>:$/.exec(row);
    if (label && !this.names.has(parseInt(label[1], 16))) this.names.set(parseInt(label[1], 16), label[2]);
    const found = / \| (\S+:\d+) \|(?: (.*))?$/.exec(row);
    if (address === null || !found) return;
    this.sources.set(address, found[1]);
    if (found[2]?.trim()) this.sourceTexts.set(found[1], found[2].trim());
  }

  /** The line of the source that an instruction comes of, and its text, if they are known. */
  source(address) {
    const place = this.sources.get(address);
    return place === undefined ? null : {place, text: this.sourceTexts.get(place) ?? ""};
  }

  /** An address by its label, with the distance behind it; null before all labels of its range. */
  label(address) {
    const place = this.places[countUpTo(this.places, address) - 1];
    if (place === undefined || (address >= DATA_START && place < DATA_START)) return null;
    return this.names.get(place) + (address > place ? `+${address - place}` : "");
  }

  labelled(address) { return this.label(address) ?? hex(address); }

  /** A task's label and its arguments, without the zeros behind the last that isn't. */
  taskWords(entry, args) {
    const kept = [...args];
    while (kept.length && kept.at(-1) === 0) kept.pop();
    const isOfData = (word) => word >= DATA_START && word < STACK_START;
    return [this.labelled(entry), ...kept.map((word) => (isOfData(word) && this.label(word)) || word)].join(" ");
  }
}
