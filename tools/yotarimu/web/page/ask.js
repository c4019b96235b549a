// ---- questions before something is lost

let answerIt = () => {};

/** Asks whether to go on, in the page; resolves to whether the person wants it. A further question answers no. */
function asked(question, yes) {
  answerIt(false);
  at("ask-text").textContent = question;
  at("ask-yes").textContent = yes;
  at("ask").hidden = false;
  at("ask-no").focus();
  return new Promise((resolve) => {
    answerIt = (answer) => {
      at("ask").hidden = true;
      resolve(answer);
    };
  });
}

/** Whether a person made acts, which only this page has: the first ones of a given script are no such acts. */
function areMade() {
  return script.length > 0 && openedAnswer !== "script" && !scriptText(subject.given).startsWith(scriptText());
}

/** Asks before acts that a person made are left; other acts can be had again. */
function mayLeave() {
  return areMade()
    ? asked(`Leave the ${plural(script.length, "act")} that you made on ${subject.name}?`, "Leave them") : true;
}

function listenToQuestions() {
  at("ask-yes").addEventListener("click", () => answerIt(true));
  at("ask-no").addEventListener("click", () => answerIt(false));
  at("ask").addEventListener("keydown", (event) => {
    if (event.key !== "Escape") return;
    event.stopPropagation();
    answerIt(false);
  });
}
