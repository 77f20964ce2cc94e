// Shows electors the ballot that counts for them: by their name on the roll or their real name, in a secret vote under the alias
// that is made here of name and code. The ballot is taken from a count of the files that the page carries. Nothing is sent or kept.
"use strict";

// The options of a ballot in its order, those that are equal together, and those that are not ranked.
function orderOf(ranks) {
  const withRank = (rank) => [...ranks.keys()].filter((at) => ranks[at] === rank);
  const steps = [...new Set(ranks)].filter((rank) => rank !== Infinity).sort((a, b) => a - b);
  return { steps: steps.map(withRank), unranked: withRank(Infinity) };
}

// The answer to a motion, by the order of its two ranks: the word, and the name of the option unless it begins with the word.
function answerIn([option, other], names, words) {
  const at = option === other ? 2 : Number(option > other);
  const word = words.answers.split(" ")[at];
  const said = word[0].toUpperCase() + word.slice(1);
  const begins = names[at]?.normalize("NFC").toLowerCase().match(/[\p{L}\p{N}_]+/u)?.[0];
  return at === 2 || begins === word ? said : said + words.colon + names[at];
}

// Texts as part of a sentence.
function joined(texts, and) {
  return texts.length > 1 ? texts.slice(0, -1).join(", ") + and + texts.at(-1) : texts[0];
}

(() => {
  // with tellers electors look for their number themselves
  if (document.getElementById("Find") === null) return;
  const DIGITS = 32;
  // among more electors no name is suggested, since it would take seconds
  const SUGGESTED_LIMIT = 20_000;

  // each id of the page itself has a capital letter, and no elector's name has one
  const byId = (id) => document.getElementById(id);
  // the sentences, in the language of the page, with their places in braces; and how letters are spelled in a name on the roll
  const words = JSON.parse(byId("Find").dataset.words);
  const letters = JSON.parse(byId("Find").dataset.letters);
  const sentence = (key, places = {}) => words[key].replace(/\{([a-z]+)\}/g, (all, place) => places[place]);
  const nameInput = byId("Name");
  // only in a secret vote; where codes are on the roll, they are typed as the name
  const codeInput = byId("Code");
  const CODE = codeInput === null ? /^[2-9a-hjkmnp-z]{10}$/ : /^[0-9a-f]{32}$/;
  const isByCode = "type_code" in words;
  const isOpen = "do_you_mean" in words;
  // The questions of the page: all, of which it carries the ballot of each elector, null for those who have none; or its own one.
  const carriedQuestions = [...document.querySelectorAll("pre[data-options]")].map(({ dataset, textContent }) => ({
    ...dataset, names: JSON.parse(dataset.options),
    ballots: new Map(textContent.trim().split("\n").map((line) => [line.split(" ")[0], line.includes(" ") ? line : null])),
  }));
  const ownNames = () => [...document.querySelectorAll('[aria-labelledby="Options"] li i + bdi')].map((node) => node.textContent);
  const questions = carriedQuestions.length > 0 ? carriedQuestions : [{ label: byId("Find").dataset.label ?? "", names: ownNames(), motion: words.answers }];
  // what was typed last; an answer to what was typed before is not shown
  let asked = 0;

  const say = (...nodes) => byId("Answer").replaceChildren(...nodes);

  function element(tag, ...inner) {
    const node = document.createElement(tag);
    node.append(...inner);
    return node;
  }

  // a sentence with nodes at its places
  const paragraph = (key, places = {}) => element("p", ...nodesOf(words[key], places));
  // what was typed
  const quoted = (text) => [element("q", element("bdi", text))];

  // ---- names
  const folded = (text) => text.normalize("NFKD").replace(/[\p{M}\s]/gu, "").toLowerCase();
  const spelled = (text) => [...text].map((letter) => letters[letter] ?? letter).join("").toLowerCase();

  // The name that the roll has for a real name.
  function nameOnRoll(realName) {
    const plain = spelled(spelled(realName.normalize("NFC").toLowerCase()).normalize("NFKD").replace(/\p{M}/gu, ""));
    const bare = (name) => name.replace(/^-+|-+$/g, "");
    return bare(bare(plain.replace(/[^a-z0-9]+/g, "-")).slice(0, DIGITS));
  }

  // A code without the gaps that it may be written with.
  const withoutGaps = (code) => code.replace(/[\s-]/g, "").toLowerCase();

  // What may be meant: as it was typed, those whose real name the page has, and by the rules of the roll; or the code on the roll.
  function namesTyped() {
    const typed = nameInput.value.trim();
    if (typed === "") return [];
    if (isByCode && codeInput === null) return [withoutGaps(typed)];
    const known = [...document.querySelectorAll(".roll bdi")].filter((node) => folded(node.textContent) === folded(typed));
    const names = known.map((node) => node.parentNode.firstChild.textContent.trim());
    return [...new Set([typed.toLowerCase(), ...names, nameOnRoll(typed)])];
  }

  async function aliasOf(name, code) {
    const bytes = new TextEncoder();
    const how = { name: "HMAC", hash: "SHA-256" };
    const key = await crypto.subtle.importKey("raw", bytes.encode(code), how, false, ["sign"]);
    const digest = new Uint8Array(await crypto.subtle.sign("HMAC", key, bytes.encode(name)));
    return [...digest].map((byte) => byte.toString(16).padStart(2, "0")).join("").slice(0, DIGITS);
  }

  // ---- ballots
  // The ballot of each elector on the roll by the files of the page, null for those who have none; null if the page carries no files.
  async function countFiles() {
    if (carriedQuestions.length > 0) return null;
    const [pollBytes, ballotBytes] = [carried("Poll-file"), carried("Ballots-file")];
    if (pollBytes === null) return null;
    const poll = readPoll(pollBytes);
    const tally = await inSlices(count(poll, ballotBytes), () => true);
    const why = whyNotSecret(poll, tally);
    if (why !== null) throw Object.assign(new Error(why), { key: "no_secret_vote" });
    return new Map([...poll.electors].map(([name, at]) => [name, tally.standing[at]?.line ?? null]));
  }

  // counted once
  let counted;
  function ballotsOfFiles() {
    counted ??= countFiles();
    return counted;
  }

  // The ballot of an elector as the page has it, and where it has them, as its files have it: null if there is none, undefined if
  // there is no such elector.
  function ballotOf(elector, question, files) {
    if (question.ballots) return question.ballots.get(elector);
    const place = byId(elector);
    const isOnPage = place?.closest(".ballots");
    const onPage = isOnPage ? `${elector} ${place.querySelector("code").textContent}` : place?.closest(".roll, .absent") ? null : undefined;
    if (files !== null && files.get(elector) !== onPage) throw Object.assign(new Error(), { key: "shows_others" });
    return onPage;
  }

  // A ballot as a numbered list, with the names that the page has for the options.
  function ballotNode(line, { names, motion }) {
    const ranks = line.split(" ")[1].split(",").map((rank) => (rank === "-" ? Infinity : Number(rank)));
    const { steps, unranked } = motion ? { steps: [], unranked: [] } : orderOf(ranks);
    const listed = (some) => joined(some.map((at) => names[at]), words.and);
    const list = document.createElement("ol");
    list.append(...steps.map((some) => element("li", some.length > 1 ? sentence("equally", { options: listed(some) }) : names[some[0]])));
    const node = document.createElement("div");
    node.className = "found";
    if (motion) node.append(element("p", element("bdi", answerIn(ranks, names, words))));
    else node.append(...(steps.length > 0 ? [list] : [paragraph("nothing")]));
    if (steps.length > 0 && unranked.length > 0) node.append(paragraph("not_ranked", { options: [listed(unranked)] }));
    return node;
  }

  // The electors of the page who may be meant, as a sentence with buttons.
  let find;
  function suggested(name) {
    const namesIn = (item) => [item.firstChild.textContent.trim(), ...[...item.querySelectorAll("bdi")].map((node) => node.textContent)];
    const items = [...document.querySelectorAll(".roll li")];
    if (items.length > SUGGESTED_LIMIT) return [];
    find ??= finderOf(items.map(namesIn));
    const { suggested: names } = find(name);
    if (names.length === 0) return [];
    const realNames = new Map(items.map(namesIn));
    const shown = (one) => (realNames.get(one) === undefined ? one : `${one} (${realNames.get(one)})`);
    const choose = (chosen) => {
      nameInput.value = chosen;
      nameInput.focus();
      show();
    };
    return [paragraph("do_you_mean", { names: suggestions(names, choose, shown) })];
  }

  // That a refused or a late line has the name of an elector, with a link to these lines; only an open vote has them.
  function uncounted(elector) {
    const lines = [...document.querySelectorAll('[aria-labelledby="Refused-lines"] li code')];
    if (!lines.some((node) => node.textContent.trim().split(/[\s:]/)[0].toLowerCase() === elector)) return [];
    const link = element("a", byId("Refused-lines").textContent);
    link.href = "#Refused-lines";
    return [paragraph("uncounted", { lines: [link] })];
  }

  // The title of a question of several, with a link to its page.
  function headingOf({ label, title, ballots }, elector) {
    if (!ballots) return [];
    const link = element("a", `${label} ${title}`);
    link.href = `${label}/index.html${codeInput === null ? `#${elector}` : ""}`;
    return [element("h4", link)];
  }

  // What became of the ballot of an elector in a question: what it says, perhaps with the line that came, or that none counts.
  function fateOf({ name, onRolls }, at, files, hasLine) {
    const line = ballotOf(onRolls[at], questions[at], files);
    if (!line) return [paragraph("no_ballot", { name: [name], alias: [element("code", onRolls[at])] }), ...uncounted(onRolls[at])];
    const node = ballotNode(line, questions[at]);
    if (hasLine) node.append(paragraph("line", { line: [element("code", line)] }));
    return [paragraph("counts", { name: [element("b", name)] }), node];
  }

  // What there is to say of electors, of whom those count that are on the roll. Each has a name that is said, and by question the name
  // on the roll.
  function told(electors, files) {
    const isOnRoll = ({ onRolls }) => questions.some((question, at) => ballotOf(onRolls[at], question, files) !== undefined);
    const found = electors.filter(isOnRoll);
    if (found.length === 0) {
      const [{ name, onRolls }] = electors;
      const meant = isOpen ? suggested(nameInput.value) : [];
      return meant.length > 0 ? meant : [paragraph("no_elector", { name: quoted(name), alias: [element("code", onRolls[0])] })];
    }
    const answerOf = (elector, at) => [...headingOf(questions[at], elector.onRolls[at]), ...fateOf(elector, at, files, true)];
    return found.flatMap((elector) => questions.flatMap((question, at) => answerOf(elector, at)));
  }

  // Nodes by the ballots of the files, or why there are none.
  async function nodesBy(made) {
    try {
      return await made(await ballotsOfFiles());
    } catch (fault) {
      return [paragraph(fault.key ?? "unread", { fault: [fault.message] })];
    }
  }

  async function show() {
    const names = namesTyped();
    const mine = (asked += 1);
    if (names.length === 0) return say(paragraph("type_name"));
    let rollsOf = (name) => questions.map(() => name);
    const code = withoutGaps((codeInput ?? nameInput).value);
    if (isByCode && !CODE.test(code)) return say(paragraph("type_code"));
    if (codeInput !== null) {
      if (!globalThis.crypto || !crypto.subtle) return say(paragraph("no_alias"));
      rollsOf = (name) => Promise.all(questions.map(({ label }) => aliasOf(`${label} ${name}`.trim(), code)));
    }
    const electors = await Promise.all(names.map(async (name) => ({ name, onRolls: await rollsOf(name) })));
    const nodes = await nodesBy((files) => told(electors, files));
    return mine === asked ? say(...nodes) : undefined;
  }

  function forget() {
    asked += 1;
    say();
  }

  // Says below how each question ended what became of the ballot of the elector whom the address of the page names, whatever follows a
  // slash. The browser may have gone to its place in the list.
  async function showNamed() {
    const [named] = placeNamed().split("/");
    const place = byId(named) ?? byId(named.toLowerCase());
    if (!isOpen || place?.closest(".ballots, .roll") == null) return;
    const list = place.closest("details");
    if (list?.open) {
      list.open = false;
      scrollTo(0, 0);
    }
    const elector = { name: place.id, onRolls: questions.map(() => place.id) };
    for (const [at, node] of [...document.querySelectorAll(".mine")].entries()) {
      node.replaceChildren(...(await nodesBy((files) => fateOf(elector, at, files, false))));
    }
  }

  // a telephone begins a text with a capital letter
  for (const input of [nameInput, codeInput].filter((node) => node !== null)) {
    input.autocapitalize = "none";
    input.addEventListener("input", forget);
    input.addEventListener("keydown", (event) => {
      if (event.key === "Enter") show();
    });
  }
  byId("Show").addEventListener("click", show);
  byId("Find").hidden = false;
  addEventListener("hashchange", showNamed);
  // a browser goes to the place in the list, and opens it, until the page is loaded
  addEventListener("load", () => setTimeout(showNamed));
})();
