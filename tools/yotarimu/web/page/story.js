// ---- a story: one conflict, step by step

let storyPlace = -1;

function openStory() {
  return perform(async () => {
    await openExample(examples.find((it) => it.name === story.example), 0);
    showStory(true);
    tellStory(0);
  });
}

/** During the story no acts are made, and what comes after its step is hidden. */
function showStory(isOpen) {
  at("story").hidden = !isOpen;
  if (isOpen) showExercise(null);
  showAnswers();
  timeline.ask();
}

function tellStory(place) {
  player.stop();
  showStep(Math.max(0, Math.min(story.steps.length - 1, place)));
  go(story.steps[storyPlace].act);
}

function showStep(place) {
  storyPlace = place;
  const {text} = story.steps[place];
  show(at("story-text"), toldHtml(text));
  at("story-where").textContent = `${storyPlace + 1} of ${story.steps.length}`;
  at("story-back").disabled = storyPlace === 0;
  at("story-on").textContent = storyPlace === story.steps.length - 1 ? "Now you" : "Next step";
}

/** While the run is played, the story shows its last step up to that act. */
function followStory() {
  if (at("story").hidden) return;
  const place = story.steps.findLastIndex(({act}) => act <= current);
  if (place !== storyPlace) showStep(Math.max(0, place));
}

function storyOn() {
  if (storyPlace === story.steps.length - 1) nowYou();
  else tellStory(storyPlace + 1);
}

function closeStory() {
  showStory(false);
  at("play").focus();
}

/** The same image without acts. */
function nowYou() {
  return perform(async () => {
    const example = examples.find((it) => it.name === story.example), {options} = wordsRead(example.words);
    await open({name: example.name, image: bytesOf(example.image), listing: listingRows(example.listing), options}, 0);
    at("tile").value = "0";
    showRefusals(lastShown.machine);
    show(at("cut"), "Your turn: dispatch a task of a tile, and let it take steps.");
    document.querySelector('[data-act]:not([aria-disabled="true"])')?.focus();
  });
}

function listenToStory() {
  isSecret = () => !at("story").hidden;
  at("story-open").addEventListener("click", async () => { if (await mayLeave()) openStory(); });
  at("story-on").addEventListener("click", storyOn);
  at("story-back").addEventListener("click", () => tellStory(storyPlace - 1));
  at("story-close").addEventListener("click", closeStory);
}
