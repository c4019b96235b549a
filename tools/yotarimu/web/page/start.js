// ---- the page's beginning

async function begin() {
  readKept();
  onPlace = () => {
    followStory();
    writeAddress();
    showRefusals(lastShown.machine);
    show(at("cut"), cutTold);
  };
  buildControls();
  buildExercises();
  listenToQuestions();
  listenToEditor();
  listen();
  chooseTab("source");
  listenToControls();
  listenToTexts();
  listenToStory();
  listenToExercises();
  listenToProfile();
  machines = new Machines(modules);
  await machines.start();
  let isFollowed = false;
  await perform(async () => { isFollowed = await openAddress(addressToBegin()); });
  const refused = at("message").textContent;
  if (!isFollowed) await openStory();
  if (refused) tell(refused);
  document.body.dataset.ready = "yes";
}

const ready = typeof WebAssembly === "undefined" || typeof DecompressionStream === "undefined"
  ? Promise.resolve(tell("This browser is too old for the machine: it has no WebAssembly, or no DecompressionStream."))
  : begin().catch((error) => {
    document.body.dataset.failed = "yes";
    tell(`The machine doesn't start in this browser: ${error.message}.`);
  });
