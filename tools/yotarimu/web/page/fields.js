// ---- texts in fields: of a long one a piece alone is shown, since a browser takes seconds to lay out so many lines

const MOST_SHOWN_LINES = 2000;
// Texts that don't stand whole in their fields, by the fields' names.
const wholeTexts = {};

/** Where a text's first lines end, so many at most. */
function behindLines(text, count) {
  let place = 0;
  for (let line = 0; line < count && place < text.length; line++) {
    const newline = text.indexOf("\n", place);
    place = newline < 0 ? text.length : newline + 1;
  }
  return place;
}

/** Where a text's last lines begin, so many at most. */
function beforeLines(text, count) {
  let place = text.length;
  for (let line = 0; line < count && place > 0; line++) place = text.lastIndexOf("\n", place - 2) + 1;
  return place;
}

/** Shows a text in a field. A long one isn't changed there. */
function showText(id, text, isEndShown = false) {
  const piece = isEndShown ? text.slice(beforeLines(text, MOST_SHOWN_LINES))
    : text.slice(0, behindLines(text, MOST_SHOWN_LINES));
  const isWhole = piece.length === text.length;
  at(id).value = piece;
  at(id).readOnly = !isWhole;
  wholeTexts[id] = isWhole ? undefined : text;
  at(`${id}-note`).textContent = isWhole ? ""
    : `Only the ${isEndShown ? "last" : "first"} ${grouped(MOST_SHOWN_LINES)} lines are shown, and can't `
      + "be changed here. What is saved or checked is the whole text.";
}

/** The whole text of a field. */
const textIn = (id) => wholeTexts[id] ?? at(id).value;

/** A line of a text by its number, from 1 on; nothing where there is none. */
function lineAt(text, number) {
  return text.slice(behindLines(text, number - 1), behindLines(text, number)).replace("\n", "");
}
