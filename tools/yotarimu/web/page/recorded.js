// ---- a run that was recorded: its lines, its sentences and the machine before them stand in the page

const data = (id) => JSON.parse(at(`${id}-data`).textContent);

function begin() {
  const [head, ...acts] = data("lines"), sentences = data("sentences");
  course = new Course(head, data("opening"));
  for (const line of acts) course.follow(line);
  saying = (place) => sentences[place] + (place === course.length ? ` ${sentences[place + 1] ?? ""}` : "");
  onPlace = writeHash;
  listen();
  build(data("listing"));
  addEventListener("hashchange", goByHash);
  goByHash();
}

let waiting, written;

/** Keeps the number of the act in the address. A browser allows only so many changes of it in a time. */
function writeHash(number) {
  clearTimeout(waiting);
  waiting = setTimeout(() => {
    written = number;
    location.replace(`#${number}`);
  }, 200);
}

function goByHash() {
  const number = Number(location.hash.slice(1)) || 0;
  if (number !== written) goToNumber(number);
}

begin();
