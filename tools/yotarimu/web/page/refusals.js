// ---- what the machine would refuse: buttons of such acts can't be pressed, and say why

/** Whether the run is over behind an act. */
function isOver(machine, least) {
  if (!least || least.state === "trapped") return true;
  return machine.commits >= course.head.commits;
}

/** Behind how many acts a leg was taken that is held for a core; null where none is. */
function heldSince(core) {
  if (courseNow().kind !== "steps") return null;
  const acts = script.slice(0, current), last = acts.findLastIndex((act) => act === `take ${core}`
      || act === `give ${core}`);
  return last >= 0 && acts[last] === `take ${core}` && course.acts[last]?.reply === "ok" ? last : null;
}

/** Whether a held leg begins where the task of its core stands. What its registers have isn't known here. */
function isHeld(machine, {tile, core}) {
  const place = heldSince(`${tile} ${core}`), task = machine.tasks.get(machine.cores[tile][core]);
  if (place === null || !task) return false;
  const before = course.at(place), then = before.tasks.get(before.cores[tile][core]);
  return then.id === task.id && then.pc === task.pc && then.work === task.work;
}

/** Which of the sentences on refusals an act would get; null where it may be done. */
const REFUSED = {
  dispatch(machine, {tile, least}) {
    const idle = machine.queues[tile].map((id) => machine.tasks.get(id)).filter(({state}) => state === "idle");
    if (!idle.length) return "dispatch empty";
    return machine.cores[tile].includes(null) || idle.includes(least) ? null : "dispatch busy";
  },
  step(machine, {tile, core}) {
    const task = machine.tasks.get(machine.cores[tile][core]);
    return !task ? "stale free" : task.state === "trapped" ? "stale trapped" : null;
  },
  take: (machine, place) => REFUSED.step(machine, place),
  give: (machine, place) => (isHeld(machine, place) ? null : "give stale"),
  abort(machine, {tile, least}) {
    const dispatched = machine.queues[tile].map((id) => machine.tasks.get(id)).filter(({state}) => state !== "idle");
    if (!dispatched.length) return "abort empty";
    return dispatched.every((task) => task === least) ? "abort firm" : null;
  },
  commit: (_, {least}) => (least.state === "finished" ? null : "commit empty"),
  coalesce(machine, {tile, least}) {
    const isFirm = ({state, name, creator}) => state === "idle" && (name !== null || creator === least.id);
    return machine.queues[tile].some((id) => isFirm(machine.tasks.get(id))) ? null : "coalesce empty";
  },
  split(machine, {tile, least}) {
    const block = machine.blocks[tile], isFull = machine.queues[tile].length >= course.head.task_queue;
    if (!block.length) return "split empty";
    return isFull && !block.includes(least) ? "split stall" : null;
  },
  advance: () => null,
};

function refusalTold(word, machine, place) {
  const over = isOver(machine, place.least);
  if (over && word !== "take") return "ended";
  return REFUSED[word](machine, place);
}

/** Sets which buttons can be pressed behind the act that is shown. */
function showRefusals(machine) {
  const place = {tile: Number(at("tile").value), core: Number(at("core").value), least: leastIn(machine)};
  for (const button of document.querySelectorAll("[data-act]")) {
    const word = button.dataset.act, refused = refusalTold(word, machine, place);
    const task = machine.tasks.get(machine.cores[place.tile]?.[place.core]);
    // It stays where keys and fingers reach it, and tells why it does nothing.
    button.setAttribute("aria-disabled", refused !== null);
    button.title = refused === null ? "" : `Refused: ${
      filled(sentences.refusals[refused], {task: task ? machine.label(task) : ""})}.`;
  }
  const isUndoable = past.length > 0 || courseNow().kind === "steps" && script.length > 0;
  at("undo").setAttribute("aria-disabled", !isUndoable);
  at("undo").title = isUndoable ? "" : "No act is left to undo.";
}
