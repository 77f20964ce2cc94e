// The button "Count again here": counts the files that the page carries, or those that the reader chooses, by recount.js, which
// stands above, and says what is the same and what is not. Nothing is sent, and nothing is kept. It takes neither the page nor a
// checksum from a letter: a page that somebody has changed would call it right.
"use strict";

// The bytes of a file that the page carries, as it was published; null where it does not carry it.
function carried(id) {
  const node = document.getElementById(id);
  if (node === null) return null;
  if (node.dataset.as !== "base64") return new TextEncoder().encode(node.textContent);
  return Uint8Array.from(atob(node.textContent), (sign) => sign.charCodeAt(0));
}

// Runs a count in slices of so many milliseconds, after which the page gets its turn. Null where it is not wanted any more.
async function inSlices(steps, isWanted, tell = () => {}) {
  for (;;) {
    const end = performance.now() + 12;
    let step;
    do step = steps.next();
    while (!step.done && performance.now() < end);
    if (step.done) return step.value;
    tell(step.value);
    await new Promise((done) => setTimeout(done));
    if (!isWanted()) return null;
  }
}

(() => {
  const byId = (id) => document.getElementById(id);
  const answer = byId("Again-answer");
  const more = byId("Again-more");
  const progress = byId("Again-progress");
  // how often a count was asked for; one that is not the last says nothing more
  let asked = 0;

  // A sentence in the language of the page, with what stands at its places.
  const words = JSON.parse(byId("Again").dataset.words);
  const sentence = (key, places = {}) => words[key].replace(/\{([a-z]+)\}/g, (all, place) => places[place]);

  function element(tag, text, kind) {
    const node = document.createElement(tag);
    node.textContent = text;
    if (kind) node.className = kind;
    return node;
  }

  const paragraph = (...said) => element("p", sentence(...said));

  // Shows an answer. It may be longer than the window, or below it; its beginning is seen.
  function say(...nodes) {
    answer.replaceChildren(...nodes);
    answer.scrollIntoView({ block: "nearest" });
  }

  async function countAgain(files) {
    const mine = (asked += 1);
    const isLast = () => mine === asked;
    answer.replaceChildren(paragraph("counting"));
    more.replaceChildren();
    progress.value = 0;
    progress.hidden = false;
    let nodes;
    try {
      nodes = await told(files, isLast);
    } catch (fault) {
      nodes = [wrong(files, "fault", { fault: fault.message })];
      if (!(fault instanceof Fault)) throw fault;
    } finally {
      if (isLast()) {
        progress.hidden = true;
        if (nodes) say(...nodes);
      }
    }
  }

  // What there is to say of the files, once they are counted.
  async function told(files, isLast) {
    const poll = readPoll(files.poll);
    const tally = await inSlices(count(poll, files.ballots), isLast, (share) => {
      progress.value = share;
    });
    if (tally === null) return null;
    const why = whyNotSecret(poll, tally);
    if (why !== null) return [wrong(files, "no_secret_vote", { why })];
    const outcome = outcomeOf(poll, tally.votes);
    const above = sheetAbove(poll, tally, outcome);
    const found = compare(poll, above, outcome.set, textOf(files.sheet));
    const { line } = decision(poll, outcome.set, found.isSame ? found.casting : null);
    const nodes = verdict(files, poll, found, line, above.length + 1);
    if (files.arePublished) nodes.push(aboutPage(files, poll, tally, outcome, line));
    nodes.push(...(await aboutChecksums(files)), paragraph("second"));
    if (isLast()) more.replaceChildren(sheetNode([...above, line].join("\n")));
    return nodes;
  }

  // What is not as it should be, and what to do about it.
  function wrong(files, key, places) {
    const tell = sentence(files.arePublished ? "tell" : "tell_if_published");
    return element("p", `${sentence(key, places)} ${tell}`, "differs");
  }

  // Whether the sheet is that of the count, and what the count comes to.
  function verdict(files, poll, found, line, lines) {
    const sheet = sentence(files.whoseSheet);
    if (!found.isSame) {
      const [given, counted] = shownApart(found);
      return [wrong(files, "differs", { sheet, line: found.at + 1, given, counted }), lastLine(line)];
    }
    const nodes = [element("p", sentence("same", { sheet, lines }), "found"), lastLine(line)];
    if (found.casting !== null) nodes.push(paragraph("casting", { option: poll.names[found.casting] }));
    return nodes;
  }

  // A sentence with what is copied or compared at its places.
  function exact(key, places, kind) {
    const node = element("p", "", kind);
    node.append(...nodesOf(words[key], Object.fromEntries(Object.entries(places).map(([place, text]) => [place, [element("code", text)]]))));
    return node;
  }

  // The line is the program's, in English, and its number and name of an option have one blank between them.
  const lastLine = (line) => exact("last", { line });

  // Two lines that differ, as they are shown. Where the line feed alone differs, this is said of each.
  function shownApart({ given, counted }) {
    const lines = [given, counted].map(shown);
    if (lines[0] !== lines[1]) return lines;
    const withEnd = (line, whole) => sentence(whole?.endsWith("\n") ? "with_feed" : "without_feed", { line });
    return [withEnd(lines[0], given), withEnd(lines[1], counted)];
  }

  function sheetNode(text) {
    const node = document.createElement("details");
    const whole = document.createElement("pre");
    whole.append(element("code", text));
    node.append(element("summary", sentence("whole_sheet")), whole);
    return node;
  }

  // an option as the page has it
  const option = (poll, at) => `${at + 1}\u00a0${poll.shown[at]}`;

  // A ballot in words, as the page says it; its options are said so, but in a motion.
  function ballotWords(poll, ranks, said) {
    if (words.answers) return answerIn(ranks, poll.shown, words);
    const { steps, unranked } = orderOf(ranks);
    const listed = (some) => joined(some.map(said), words.and);
    if (steps.length === 0) return words.nothing;
    const step = (some) => (some.length > 1 ? sentence("equally", { options: listed(some) }) : said(some[0]));
    const ranked = steps.map(step).join(words.then);
    return unranked.length === 0 ? ranked : sentence("unranked", { ranked, unranked: listed(unranked) });
  }

  // The ballots of the page that are not as the files have them: their ranks, and their words.
  function otherBallots(poll, tally) {
    const entries = [...document.querySelectorAll('[aria-labelledby="Ballots"] .ballots li')];
    const ballots = tally.standing.filter((ballot) => ballot !== null);
    const [named, numbered] = [(at) => option(poll, at), (at) => String(at + 1)];
    const isSame = (node, ballot) => {
      const [elector, ranks] = ballot?.line.split(" ") ?? [];
      const texts = [named, numbered].map((said) => () => ballotWords(poll, ballot.ranks, said));
      const isText = (text) => node.textContent === `${elector} ${ranks}${words.colon}${text()}`;
      return ballot !== undefined && node.id === elector && texts.some(isText);
    };
    const at = entries.findIndex((node, i) => !isSame(node, ballots[i]));
    if (at >= 0) return [sentence("the_ballot", { elector: entries[at].id })];
    return entries.length === ballots.length ? [] : [sentence("the_ballots")];
  }

  // Whether each name beside a number is that of this option in the poll, and the list of options has them all, with their plain names.
  function areNamesSame(poll) {
    const isNamed = (node) => poll.shown[node.previousElementSibling.textContent - 1] === node.textContent;
    const entries = [...document.querySelectorAll('[aria-labelledby="Options"] li')];
    const plain = (at) => (poll.shown[at] === poll.names[at] ? undefined : sentence("plain_name", { name: poll.names[at] }));
    const isListed = (node, at) => node.textContent.startsWith(option(poll, at)) && node.querySelector(".plain")?.textContent === plain(at);
    const isSame = entries.length === poll.names.length && entries.every(isListed) && [...document.querySelectorAll("i + bdi")].every(isNamed);
    return isSame && document.querySelector("h1").textContent === poll.shownTitle;
  }

  // Whether the numbers beside bars are those of the count: the winner's against others, or those of an option that failed against the
  // default option; each language parts thousands by its own sign.
  function areNumbersSame(poll, { votes, voters }, won) {
    const fallback = poll.names.length - 1;
    return [...document.querySelectorAll(".duel, .option:has(+ .bar)")].every((row) => {
      // a motion that was carried has its name above alone
      const other = poll.shown.indexOf((row.querySelector("bdi") ?? byId("Result")).textContent);
      // the reason below a bar has names, too, which may have numbers
      const nodes = row.matches(".duel") ? [row.lastElementChild] : [...row.parentNode.querySelectorAll(".reason b")];
      const text = nodes.map((node) => node.textContent).join(" ").replace(/(\d)[.,\u00a0](?=\d{3})/g, "$1");
      const [over, under, equal = 0] = (text.match(/\d+/g) ?? []).map(Number);
      if (!row.matches(".duel:not(.failed)")) return over === votes[other]?.[fallback] && under === votes[fallback][other];
      return over === votes[won][other] && under === votes[other]?.[won] && equal === voters - over - under;
    });
  }

  // How it ended, as the page says it.
  function endedIn(poll, set, won) {
    const isLast = won === poll.names.length - 1;
    const kind = words.answers ? (isLast ? "rejected" : "carried") : isLast ? "default" : "won";
    return byId("Again").dataset[won === null ? "tie" : set.length > 1 ? "casting" : kind];
  }

  // Whether the page shows what its files come to: how it ended, its numbers, its names, its votes and its ballots.
  function aboutPage(files, poll, tally, outcome, line) {
    const others = [];
    // the winner stands alone; in a tie all that are left stand together
    const won = line.startsWith("Winner: ") ? parseInt(line.slice(8), 10) - 1 : null;
    const named = [...document.querySelectorAll(won === null ? ".outcome .left bdi" : "#Result b")].map((node) => node.textContent);
    const wanted = won === null ? outcome.set.map((at) => poll.shown[at]) : [poll.shown[won]];
    const isEnded = document.querySelector(".ended").textContent === endedIn(poll, outcome.set, won);
    if (!isEnded || named.join("\n") !== wanted.join("\n") || !areNumbersSame(poll, tally, won)) others.push(sentence("the_result"));
    if (!areNamesSame(poll)) others.push(sentence("the_names"));
    const cells = [...document.querySelectorAll('[aria-labelledby="Votes"] tbody td')].map((cell) => cell.textContent);
    const counted = tally.votes.flatMap((row, a) => row.map((votes, b) => (a === b ? "-" : String(votes))));
    if (cells.join(" ") !== counted.join(" ")) others.push(sentence("the_votes"));
    others.push(...otherBallots(poll, tally));
    if (others.length === 0) return paragraph("page_same", { ballots: tally.voters });
    return wrong(files, "page_differs", { where: others.join(words.semicolon) });
  }

  async function sumOf(bytes) {
    const digest = new Uint8Array(await crypto.subtle.digest("SHA-256", bytes));
    return [...digest].map((byte) => byte.toString(16).padStart(2, "0")).join("");
  }

  // The checksums of both files, beside those that the page names.
  async function aboutChecksums(files) {
    if (!globalThis.crypto || !crypto.subtle) return [paragraph("no_sums")];
    const parts = [["poll_sum", files.poll], ["ballots_sum", files.ballots]];
    const { seal } = byId("Again").dataset;
    if (seal) parts.push(["sealed_sum", Uint8Array.from([...new TextEncoder().encode(seal + "\n"), ...files.ballots])]);
    const named = byId("How-to-verify").closest("section").textContent;
    const nodes = [];
    for (const [key, bytes] of parts) {
      const sum = await sumOf(bytes);
      const isNamed = named.includes(sum);
      const node = exact(key, { sum }, isNamed ? "" : "differs");
      node.append(` ${sentence(isNamed ? "sum_named" : "sum_not_named")}`);
      nodes.push(node);
    }
    return nodes;
  }

  // The files that were chosen, by what they are; the sheet is the page's where none is among them. Null where one is missing, or
  // two are of a kind. Of a file that is too long no more is read than shows it.
  async function chosen() {
    const found = new Map();
    for (const file of byId("Again-files").files) {
      const kind = ["poll", "ballots", "sheet"].find((start) => file.name.toLowerCase().startsWith(start));
      if (found.has(kind)) return null;
      if (kind) found.set(kind, new Uint8Array(await file.slice(0, MOST_BALLOT_BYTES + 1).arrayBuffer()));
    }
    if (!found.has("poll") || !found.has("ballots")) return null;
    const whoseSheet = found.has("sheet") ? "sheet_chosen" : "sheet_of_page";
    return { whoseSheet, arePublished: false, sheet: carried("Sheet-file"), ...Object.fromEntries(found) };
  }

  async function countChosen() {
    let files = null;
    let key = "choose";
    try {
      files = await chosen();
    } catch (error) {
      key = "unreadable";
    }
    if (files !== null) return countAgain(files);
    asked += 1;
    progress.hidden = true;
    more.replaceChildren();
    return say(paragraph(key, { poll: "poll.toml", ballots: "ballots.txt", sheet: "sheet.txt" }));
  }

  const ofPage = () => ({
    whoseSheet: "sheet_published", arePublished: true,
    poll: carried("Poll-file"), ballots: carried("Ballots-file"), sheet: carried("Sheet-file"),
  });
  byId("Again-button")?.addEventListener("click", () => countAgain(ofPage()));
  byId("Again-chosen").addEventListener("click", countChosen);
  byId("Again").hidden = false;
  byId("Chosen").hidden = false;
  byId("Again-no-script").hidden = true;
})();
