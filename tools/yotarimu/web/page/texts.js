// ---- numbers, bytes and texts as they are told

const hex = (number) => number.toString(16).padStart(8, "0");
/** A number with its digits in groups of three. */
const {format: grouped} = new Intl.NumberFormat("en");
const plural = (count, one) => `${grouped(count)} ${one}${count === 1 ? "" : "s"}`;

/** A value in memory as people read it: a word is a signed number, a shorter value isn't. */
const signed = (value, bytes = 4) => (bytes === 4 ? value | 0 : value);

/** A text with the values that it names between braces. */
function filled(text, values) {
  return text.replace(/\{(\w+)\}/g, (_, name) => values[name]);
}

// As in C; other bytes than printable ASCII are \xNN.
const ESCAPED = {"\n": "\\n", "\t": "\\t", "\r": "\\r", "\\": "\\\\", '"': '\\"'};

/** Bytes in hexadecimal as text. */
function printable(digits) {
  return digits.replace(/../g, (pair) => {
    const sign = String.fromCharCode(parseInt(pair, 16));
    return ESCAPED[sign] ?? (sign >= " " && sign <= "~" ? sign : `\\x${pair}`);
  });
}

/** A text as it stands in HTML. */
function escaped(text) {
  return text.replace(/[&<>"]/g, (sign) => `&#${sign.charCodeAt(0)};`);
}

/** A text in HTML in which what stands between backticks is code. */
function toldHtml(text) {
  return escaped(text).replace(/`([^`]*)`/g, "<code>$1</code>");
}
