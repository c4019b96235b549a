// ---- what is kept in the browser: texts that were changed, answers, and the place

const KEPT_UNDER = "yotarimu", PLACE_UNDER = "yotarimu place";
// A longer place, which has all acts, isn't kept.
const MOST_KEPT = 2000000;
// The place has an address, what its texts are kept under, the texts as they came, and the page's address then.
const kept = {sources: {}, answers: {}, place: {}};
let isKeptTold = false;

/** What a browser keeps under a name; nothing if it keeps nothing or something else. */
function storedUnder(name) {
  try {
    return JSON.parse(localStorage.getItem(name)) ?? {};
  } catch {
    return {};
  }
}

function store(name, value) {
  try {
    localStorage.setItem(name, JSON.stringify(value));
  } catch {
    // It is full, or switched off.
    if (!isKeptTold) tell("This browser keeps no texts: copy a link, or save the files, before you close the page.");
    isKeptTold = true;
  }
}

function readKept() {
  const {sources, answers} = storedUnder(KEPT_UNDER);
  Object.assign(kept, {sources: Object(sources), answers: Object(answers), place: Object(storedUnder(PLACE_UNDER))});
}

/** Keeps a text under a name, or forgets it. Another tab of the page may have kept other texts since. */
function keep(what, name, text) {
  if (kept[what][name] === text) return;
  readKept();
  if (text === undefined) delete kept[what][name];
  else kept[what][name] = text;
  store(KEPT_UNDER, {sources: kept.sources, answers: kept.answers});
}

function keepPlace(address) {
  if (address.length > MOST_KEPT) return;
  const originals = editor.files.map(({name, original}) => ({name, text: original}));
  kept.place = {address, key: editor.key, originals, hash: location.hash.slice(1)};
  store(PLACE_UNDER, kept.place);
}

/** The address that the page begins with: that of a link, or of the place that was left here. */
function addressToBegin() {
  const hash = location.hash.slice(1), {place} = kept;
  return !hash || hash === place.hash ? place.address ?? hash : hash;
}
