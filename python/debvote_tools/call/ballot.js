// Makes the line of a ballot from the name and the ranks that are chosen on the page, and says it in words; with several questions its
// lines are the name, and for each question that is answered its label and ranks. In a secret vote the page asks for no name: whoever can
// change the page learns what is typed into it. The line has a gap in its place, or the name of the personal link, if the page seals it.
// It counts nothing and asks nobody. All texts of the poll are read in the page, and written as texts, never as markup.
"use strict";

(() => {
  const NAME = /^[a-z0-9.-]{1,32}$/;
  const OWN_MARK = /^[2-9a-hj-km-np-z]{10}$/;
  // mail programs break longer lines at their space
  const MAIL_LIMIT = 72;
  // in characters; longer links are cut off on their way
  const LINK_LIMIT = 2000;
  const UNRANKED = "-";

  // each id of the page has a capital letter, and no elector's name has one
  const byId = (id) => document.getElementById(id);
  const form = byId("Ballot");
  // the sentences, in the language of the page, with their places in braces
  const words = JSON.parse(form.dataset.words);
  const sentence = (key, places = {}) => words[key].replace(/\{([a-z]+)\}/g, (all, place) => places[place]);
  // not in a secret vote
  const nameInput = byId("Name");
  const sections = [...form.querySelectorAll(".question")];
  const questions = (sections.length > 0 ? sections : [form]).map((node) => ({
    // empty if there is one question
    label: node.dataset.label ?? "",
    names: [...node.querySelectorAll(".option .name")].map((name) => name.textContent),
    // each is a list, or has a button for each rank, or in a motion for each answer, which makes both ranks
    ranks: [...node.querySelectorAll(".rank")],
    // a motion that is one of several questions says its answer below them alone
    said: node.querySelector("ul"),
  }));
  // the names on the roll, and the real names beside them, where the page shows them
  const electors = [...document.querySelectorAll(".roll li")].map((item) => [...item.children].map((part) => part.textContent));
  const roll = electors.map(([name]) => name);
  // what to do without an own mark, where a letter needs one
  const unmarked = document.querySelectorAll(".unmarked");
  // the name and the own mark that the address of the page has
  let linked = {};
  // the ballot that the page shows; empty while something is missing
  let ballot = "";

  function element(tag, ...inner) {
    const node = document.createElement(tag);
    node.append(...inner);
    return node;
  }

  // A text that has not changed is not written again, so that a screen reader does not read it again.
  function say(place, ...nodes) {
    const made = element("p", ...nodes);
    const node = typeof place === "string" ? byId(place) : place;
    if (node.textContent !== made.textContent || node.children.length !== made.children.length) node.replaceChildren(...made.childNodes);
  }

  // ---- the name
  const find = finderOf(electors);

  // The name on the roll that what was typed plainly is, if there is one; and the names that are suggested.
  function electorsTyped(text) {
    const typed = text.trim().replace(/[A-Z]/g, (letter) => letter.toLowerCase());
    if (roll.length === 0 || roll.includes(typed)) return { name: NAME.test(typed) ? typed : undefined, suggested: [] };
    const { whole, suggested } = find(text);
    return { name: suggested.length === 1 ? whole[0] : undefined, suggested };
  }

  // Puts a name into the field.
  function choose(name) {
    nameInput.value = name;
    nameInput.focus();
    update();
  }

  // The name for the line; undefined if there is none yet. What is wrong with it, or suggested, is said below the field.
  function nameTyped() {
    if (nameInput === null) return form.dataset.name ?? linked.name;
    const text = nameInput.value;
    const { name, suggested } = electorsTyped(text);
    const isOdd = text.trim() !== "" && name === undefined;
    if (suggested.length > 0) say("Name-said", ...nodesOf(words.on_roll, { names: suggestions(suggested, choose) }));
    else say("Name-said", isOdd ? sentence(roll.length > 0 ? "not_on_roll" : "no_name", { name: text.trim() }) : "");
    nameInput.setAttribute("aria-invalid", String(isOdd));
    return name;
  }

  // The elector and the own mark of a personal link, if the roll has such a name.
  function readLink() {
    const [name, own = ""] = placeNamed().toLowerCase().split("/");
    if (byId("You") === null || !NAME.test(name) || (roll.length > 0 && !roll.includes(name))) return;
    linked = { name, own: OWN_MARK.test(own) ? own : undefined };
    if (nameInput !== null) nameInput.value = name;
    say("Linked", name);
    askName(false);
    update();
  }

  // Shows the field for the name, or whose the personal link is.
  function askName(isAsked) {
    if (nameInput !== null) byId("Who").hidden = !isAsked;
    byId("You").hidden = isAsked;
  }

  // ---- the ranks in words
  // The whole ballot in its order: each option behind the rank that was chosen for it, those that are not ranked last.
  function ballotNodes(given, names) {
    const steps = [...new Set(given)].filter((rank) => rank !== UNRANKED).sort((a, b) => a - b);
    return [...steps, UNRANKED].flatMap((rank) => {
      const options = given.flatMap((other, option) => (other === rank ? [option] : []));
      return options.map((option) => {
        const name = element("bdi", names[option]);
        name.dataset.option = option + 1;
        return element("li", element("b", rank === UNRANKED ? "–" : rank), "\u00a0", name);
      });
    });
  }

  // ---- what the page shows
  // The subject ends with the mark of the poll, and with the own mark of the elector whose link this is; in a letter that has to be
  // signed the mark stands below the ballot, too.
  function mailTo(own) {
    const { title, mark, to, signed } = form.dataset;
    const subject = encodeURIComponent(`${sentence("subject", { title })} [${own ? `${mark}-${own}` : mark}]`);
    const text = signed === undefined ? `${ballot}\n` : `${ballot}\n[${mark}]\n`;
    return `${to}?subject=${subject}&body=${encodeURIComponent(text.replaceAll("\n", "\r\n"))}`;
  }

  // Two lines of a text are shown, or one in a low window, and the rest at a touch.
  function cut(node) {
    const button = element("button", words.more);
    button.type = "button";
    button.className = "more";
    button.addEventListener("click", () => {
      node.classList.remove("cut");
      button.hidden = true;
    });
    node.classList.add("cut");
    node.after(button);
    new ResizeObserver(() => {
      button.hidden = !node.classList.contains("cut") || node.scrollHeight <= node.clientHeight + 1;
    }).observe(node);
  }

  // The answer to a question, as it is on the ballot; none while no option is ranked. It is said in words beside the question.
  function answerTo({ label, names, ranks, said }) {
    const chosen = ranks.map((rank) => rank.querySelector(":checked"));
    const given = chosen.flatMap((node) => (node?.value ?? UNRANKED).split(","));
    const isRanked = given.some((rank) => rank !== UNRANKED);
    // a motion has one group of buttons, each with the word of the answer
    const inWords = ranks.length === names.length ? () => ballotNodes(given, names) : () => [element("li", chosen[0].parentNode.textContent)];
    if (sections.length === 0 || ranks.length === names.length) say(said, ...(isRanked ? inWords() : []));
    return isRanked ? { label, line: `${label} ${given}`.trim(), inWords } : undefined;
  }

  // Below several questions: how many are answered, and how, each behind its label.
  function sayAnswers(given) {
    const answered = given.map(({ label }) => label);
    const left = questions.map(({ label }) => label).filter((label) => !answered.includes(label));
    const places = { number: answered.length, count: questions.length, questions: left.join(", ") };
    byId("Lines").hidden = given.length === 0;
    say("Answered", sentence(left.length > 0 ? "some_answered" : "all_answered", places));
    say("Words", ...given.map(({ label, inWords }) => element("li", element("b", label), element("ul", ...inWords()))));
  }

  function update() {
    const name = nameTyped();
    const given = questions.map(answerTo).filter(Boolean);
    const isWhole = name !== undefined && given.length > 0;
    ballot = isWhole ? [name, ...given.map(({ line }) => line)].join(sections.length > 0 ? "\n" : " ") : "";
    say("Line", ballot);
    if (sections.length > 0) sayAnswers(given);
    say("Missing", [name === undefined && words.type_name, given.length === 0 && words.rank_missing].filter(Boolean).join(" "));
    say("Copied", "");
    byId("Ready").hidden = !isWhole;
    byId("Long").hidden = ballot.split("\n").every((line) => line.length <= MAIL_LIMIT);
    const own = name === linked.name ? linked.own : undefined;
    for (const node of unmarked) node.hidden = own !== undefined;
    const over = byId("Over");
    if (over !== null) over.hidden = Date.now() <= Date.parse(form.dataset.until);
    const letter = byId("Letter");
    if (letter === null) return;
    const link = mailTo(own);
    letter.hidden = (unmarked.length > 0 && own === undefined) || link.length > LINK_LIMIT;
    if (isWhole && !letter.hidden) letter.href = link;
    else letter.removeAttribute("href");
  }

  // ---- the copy
  async function copyLine() {
    try {
      await navigator.clipboard.writeText(ballot);
      say("Copied", words.copied);
    } catch {
      // a browser gives no clipboard to a page that did not come by https
      byId("Lines")?.setAttribute("open", "");
      getSelection().selectAllChildren(byId("Line"));
      say("Copied", words.selected);
    }
  }

  // ---- the start
  // The key of a digit or of the hyphen chooses that rank.
  function chooseByKey(event) {
    if (event.target.type !== "radio" || event.ctrlKey || event.altKey || event.metaKey) return;
    const buttons = [...event.target.closest(".rank").querySelectorAll("input")];
    const chosen = buttons.find((button) => button.value === event.key);
    chosen?.focus();
    chosen?.click();
  }

  for (const node of form.querySelectorAll(".scripted")) node.hidden = false;
  form.querySelectorAll(".text").forEach(cut);
  const foot = byId("Bottom");
  new ResizeObserver(() => foot.classList.toggle("high", foot.offsetHeight > innerHeight / 2)).observe(foot);
  if (roll.length > 0) {
    // the field offers the names on the roll, with the real names that the page shows
    const offered = element("datalist", ...electors.map(([name, who]) => new Option(who ?? name, name)));
    offered.id = "Offered";
    form.append(offered);
    nameInput.setAttribute("list", offered.id);
  }
  // a telephone begins a text with a capital letter
  if (nameInput !== null) nameInput.autocapitalize = "none";
  byId("Not-you")?.addEventListener("click", () => {
    askName(true);
    choose("");
  });
  form.addEventListener("input", update);
  form.addEventListener("keydown", chooseByKey);
  byId("Copy")?.addEventListener("click", copyLine);
  addEventListener("hashchange", readLink);
  // a browser that comes back to the page may fill in what was chosen before
  addEventListener("pageshow", update);
  update();
  readLink();
})();
