// ---- sentences on texts, a line of JSON for each, to compare the page's reader with the tools'

import {createInterface} from "node:readline";

async function toldOf({text, listing, between, most}) {
  const toldRun = new ToldRun();
  await toldRun.take(new TextEncoder().encode(text));
  const labels = new Labels(listing ? listingRows(listing) : []);
  const {course, head, end} = toldRun, sayer = new Sayer(head, labels);
  const told = [sayer.opening()], orders = [];
  for (let place = 1; place <= course.length; place++) {
    told.push(sayer.sentence(course.acts[place - 1], course.at(place - 1), course.at(place)));
    if (place % between === 0) orders.push(...ordersTold(course, place, labels, most));
  }
  return {told, end: end && sayer.end(end), orders, machine: stateOf(course.machine),
    history: course.history.description()};
}

/** What the first tasks by their labels are, and which comes first of each two of them. */
function ordersTold(course, place, labels, most) {
  const orders = new Orders(course.at(place), (dispatch) => course.makers.get(dispatch)?.name);
  const tasks = orders.all().map((task) => [orders.label(task), task])
    .sort(([one], [two]) => (one < two ? -1 : 1)).slice(0, most).map(([, task]) => task);
  const pairs = tasks.flatMap((one, number) => tasks.slice(number + 1).map((other) => orders.orderTold(one, other)));
  return [...tasks.map((task) => orders.taskTold(task, labels)), ...pairs];
}

/** The machine in numbers and names alone. */
function stateOf(machine) {
  const {queues, cores, finished, commits, events} = machine;
  const tasks =
    [...machine.tasks.values()].map((task) => [task.id, machine.label(task), task.state, task.work, task.pc]);
  const blocks = machine.blocks.map((block) => block.map((task) => task.name.join(".")));
  return {queues, cores, finished, blocks, commits, events, tasks: tasks.sort(([one], [two]) => one - two)};
}

for await (const line of createInterface({input: process.stdin})) {
  console.log(JSON.stringify(await toldOf(JSON.parse(line))));
}
