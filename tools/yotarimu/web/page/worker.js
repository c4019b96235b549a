// ---- calls in a thread of their own, so that the page stays alive

let programs;

async function made(modules) {
  const pairs = Object.entries(modules).map(async ([name, text]) => [name, await Program.unpacked(text)]);
  return Object.fromEntries(await Promise.all(pairs));
}

/** Makes both programs at first, and then answers each call. */
async function answer({number, modules, program, words, input, most}) {
  if (modules) programs = made(modules);
  const ready = await programs;
  return modules ? {number} : {number, ...ready[program].call(words, input, most)};
}

onmessage = async ({data}) => {
  try {
    const told = await answer(data);
    postMessage(told, told.output ? [told.output.buffer] : []);
  } catch (error) {
    postMessage({number: data.number, broken: error.message});
  }
};
