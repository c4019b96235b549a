// ---- which lines a task's filter tells, by its kind, as `lines/filters.py` has it

const ROW_BITS = 1024, BANKS = 8, BANK_BITS = 256;
// What a bit of a line's number adds to its hashes, the lowest bit first: two numbers of 32 bits, the lower one first.
const DIGITS = filterTable["digits of pi"].map((digits) => (
  [digits.slice(8), digits.slice(0, 8)].map((half) => parseInt(half, 16))));

/** The bit of a line in each bank, the first bank first. */
function hashedBits(line) {
  const halves = [0, 0];
  DIGITS.forEach((digits, bit) => {
    if (line >>> bit & 1) digits.forEach((half, place) => { halves[place] ^= half; });
  });
  return Array.from({length: BANKS}, (_, bank) => BANK_BITS * bank + (halves[bank >> 2] >>> 8 * (bank % 4) & 255));
}

/** How a machine finds conflicts: how many bytes a line has, and of which kind filters are. */
class LineRule {
  constructor({line, filter = "modulo"}) { Object.assign(this, {size: line, kind: filter}); }

  lineOf({address}) { return Math.floor((address - DATA_START) / this.size); }

  /** The bits that stand for a line. */
  bits(line) {
    if (this.kind === "bloom") return hashedBits(line);
    return [this.kind === "modulo" ? line % ROW_BITS : line];
  }

  /** The same as one word, so that a map may have it. */
  bitsWord(line) { return this.bits(line).join(); }

  /** Of a filter of the kind `bloom` that noted these accesses: whether it tells the line of another one. */
  tells(accesses) {
    if (this.kind !== "bloom") return () => false;
    const bits = new Set(accesses.flatMap((access) => this.bits(this.lineOf(access))));
    return (other) => this.bits(this.lineOf(other)).every((bit) => bits.has(bit));
  }
}
