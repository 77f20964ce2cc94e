"use strict";
/* recount.js: counts an election again, in plain JavaScript.

   It is written from two pages of debvote, "Definitions" and "Formats", and from nothing else: it
   has no line of the program, nor of recount.py. It needs no other file, and sends nothing. The
   page of a result has it for its button "Count again here", and nodejs runs it at a terminal:

     nodejs - count --poll FILE --ballots FILE [--casting NAME] < recount.js
     nodejs - standing --poll FILE --ballots FILE < recount.js
     nodejs - verify --poll FILE --ballots FILE --sheet FILE < recount.js

   By its name it runs too, unless a file package.json beside it says what else it is.

   To read how it counts, begin at "The poll" and end before "At a terminal".

   What stands in brackets are paragraphs of the Constitution of Debian, version 1.9.

   JavaScript computes exactly up to 2^53, and no number comes near that. There are at most 100,000
   lines and 10,000 electors, so a number of votes is at most 10,000. The greatest products are ten
   times a number of votes (a ratio is at most 10), and 100 times the number of electors (the square
   of a quorum of at most 10): 1,000,000. A whole number of the poll file that is greater than 2^53
   is not in plain form here, and refused. */

/** Why the files cannot be counted, and the status with which a run at a terminal ends. */
class Fault extends Error {
  constructor(words, status) {
    super(words);
    this.status = status;
  }
}

const MOST_POLL_BYTES = 1048576;
const MOST_BALLOT_BYTES = 33554432;
const MOST_LINES = 100000;

/* ---- The poll -------------------------------------------------------------------------------

   A published poll is in plain form: a line `key = value` for each key, in this order, with the
   value as JSON has it. It is read as such and written anew; a poll of any other form is refused,
   so that nothing in it can be read in two ways. */

const isText = (value) => typeof value === "string";
const isWhole = (value) => Number.isSafeInteger(value);
const areAll = (isKind) => (value) => Array.isArray(value) && value.every(isKind);
const orNothing = (isKind) => (value) => value === undefined || isKind(value);
const KEYS = {
  title: isText, options: areAll(isText), ratios: areAll(isWhole), default: isText,
  quorum: isWhole, wording: orNothing(isText), roll: areAll(isText),
  last_envelope: orNothing(isWhole), deadline: orNothing(isText), address: orNothing(isText),
  secret: orNothing((value) => value === true), shown_title: orNothing(isText),
  shown_options: orNothing(areAll(isText)), explanations: orNothing(areAll(isText)),
};

// those that debvote reads, in the order of its faults
const READ = [
  "title", "options", "ratios", "default", "quorum", "roll", "last_envelope", "wording",
];

/** The value of a text of JSON. No TOML has half of a surrogate pair. */
function valueOf(text) {
  return JSON.parse(text, (_, value) => {
    if (isText(value) && /\p{Surrogate}/u.test(value)) throw new SyntaxError(text);
    return value;
  });
}

/** A value as plain form writes it. */
function written(value) {
  if (Array.isArray(value)) return `[${value.map(written).join(", ")}]`;
  return JSON.stringify(value).replace(/\x7f/g, "\\u007f");
}

/** The keys and values of a text in plain form; null if it is in another form. */
function readPlain(text) {
  const values = new Map();
  try {
    for (const line of text.split("\n").slice(0, -1)) {
      const at = line.indexOf(" = ");
      values.set(line.slice(0, at), valueOf(line.slice(at + 3)));
    }
  } catch (error) {
    return null;
  }
  const kept = Object.keys(KEYS).filter((key) => values.has(key));
  const again = kept.map((key) => `${key} = ${written(values.get(key))}\n`).join("");
  return again === text ? values : null;
}

/** The poll of a file, or its first fault. */
function readPoll(bytes) {
  const ask = (isRight, words) => {
    if (!isRight) throw new Fault(words, 3);
  };
  ask(bytes.length <= MOST_POLL_BYTES, "poll too long");
  let text = null;
  try {
    text = new TextDecoder("utf-8", { fatal: true, ignoreBOM: true }).decode(bytes);
  } catch (error) {
    ask(false, "poll refused: not in UTF-8");
  }
  const values = readPlain(text);
  const right = (isRight, words) => ask(isRight, "poll refused: " + words);
  right(values !== null, "not in plain form, as the poll.toml of a result is");
  const found = Object.fromEntries(Object.keys(KEYS).map((key) => [key, values.get(key)]));
  const askFor = (keys) => keys.forEach((key) => right(KEYS[key](found[key]), "key " + key));
  askFor(READ);

  const { title, options, ratios, quorum, roll, last_envelope: last, wording } = found;
  const isWithin = (number, least, most) => least <= number && number <= most;
  right(/^[ -~]{1,80}$/.test(title), "title");
  right(isWithin(options.length, 1, 31), "number of options");
  const names = [...options, found.default];
  names.forEach((name, i) => {
    const isFormed = /^[ -~]{1,40}$/.test(name) && name.trim() === name;
    right(isFormed && names.indexOf(name) === i, "name of option " + (i + 1));
  });
  const areRatios = ratios.length === options.length && ratios.every((r) => isWithin(r, 1, 10));
  right(areRatios, "ratios");
  right(isWithin(quorum, 0, 10), "quorum");
  right(isWithin(roll.length, 1, 10000), "size of roll");
  const electors = new Map();
  roll.forEach((name, i) => {
    const isNew = /^[a-z0-9.-]{1,32}$/.test(name) && !electors.has(name);
    right(isNew, "voter at position " + i);
    electors.set(name, i);
  });
  right(last === undefined || isWithin(last, 0, MOST_LINES), "last envelope");
  right([undefined, "at_least", "more_than"].includes(wording), "wording");
  askFor(Object.keys(KEYS).filter((key) => !READ.includes(key)));
  return {
    title, names, electors, ratios, quorum, last: last === undefined ? null : last,
    isMoreThan: wording === "more_than", isSecret: found.secret === true,
    shownTitle: found.shown_title || title, shown: found.shown_options || names,
  };
}

/* ---- The ballots ---------------------------------------------------------------------------- */

const BALLOT_LINE = /^([a-z0-9.-]{1,32}) ((?:-|[1-9][0-9]?)(?:,(?:-|[1-9][0-9]?))*)$/;

/** What a line of the ballot file says: its elector, and the rank of each option, Infinity if it
    has none. Of a line that is no ballot, why. */
function readLine(poll, line) {
  const found = line.length <= 200 && BALLOT_LINE.exec(line);
  if (!found) return { why: "bad shape" };
  const ranks = found[2].split(",").map((rank) => (rank === "-" ? Infinity : Number(rank)));
  if (ranks.length !== poll.names.length) return { why: "bad rank count" };
  const elector = poll.electors.get(found[1]);
  return elector === undefined ? { why: "bad not on roll" } : { elector, ranks };
}

/** The bytes as a string with a character for each. */
function textOf(bytes) {
  let text = "";
  for (let at = 0; at < bytes.length; at += 8192) {
    text += String.fromCharCode(...bytes.subarray(at, at + 8192));
  }
  return text;
}

/** Reads the ballots and adds up the votes. It stops at each `yield`, with the share that is done,
    so that a page stays alive meanwhile. */
function* count(poll, bytes) {
  if (bytes.length > MOST_BALLOT_BYTES) throw new Fault("ballots too long", 4);
  const standing = new Array(poll.electors.size).fill(null);
  let lines = 0;
  let valid = 0;
  let odd = null; // the first line that is not the first ballot of its voter
  for (let start = 0, end; start < bytes.length; start = end + 1) {
    end = bytes.indexOf(10, start);
    if (end < 0) end = bytes.length;
    if (++lines > MOST_LINES) throw new Fault("ballots refused: too many lines", 4);
    const line = textOf(bytes.subarray(start, Math.min(end, start + 201)));
    const isLate = poll.last !== null && lines > poll.last;
    const { elector, ranks, why } = isLate ? { why: "late" } : readLine(poll, line);
    const reply = why || (standing[elector] ? "replaced" : "counted");
    if (reply !== "counted" && odd === null) odd = { line: lines, reply };
    if (!why) {
      valid += 1;
      standing[elector] = { line, ranks };
    }
    if (lines % 500 === 0) yield end / bytes.length / 2;
  }
  const size = poll.names.length;
  const votes = Array.from({ length: size }, () => new Array(size).fill(0));
  for (let i = 0; i < standing.length; i++) {
    if (standing[i]) addVotes(votes, standing[i].ranks);
    if (i % 500 === 0) yield 0.5 + i / standing.length / 2;
  }
  const voters = standing.filter((ballot) => ballot !== null).length;
  return { lines, valid, voters, votes, standing, odd };
}

/** A voter prefers a to b if a has the smaller rank; one without a rank has Infinity. [A.5.1] */
function addVotes(votes, ranks) {
  for (let a = 0; a < ranks.length; a++) {
    for (let b = 0; b < ranks.length; b++) {
      if (ranks[a] < ranks[b]) votes[a][b] += 1;
    }
  }
}

/** Why this is no published secret vote: there each line counts, once, and nothing came later than
    the call. Null if it is one, or if the vote is not secret. */
function whyNotSecret(poll, tally) {
  if (!poll.isSecret) return null;
  if (poll.last !== null) return "its poll has no last_envelope, and this one has it";
  if (tally.odd === null) return null;
  return `each line counts, once, and the reply to line ${tally.odd.line} is: ${tally.odd.reply}`;
}

/* ---- The rules. Options are numbered from 0 here, and from 1 on the sheet -------------------- */

/** The least number of votes that is at least `quorum` times Q, which is half of the square root
    of the number of electors. [4.2.7] */
function quorumVotes(poll) {
  let votes = 0;
  while ((2 * votes) ** 2 < poll.quorum ** 2 * poll.electors.size) votes += 1;
  return votes;
}

/** Why an option is dropped, or null if it is kept, as the default option always is. */
function causeOf(poll, votes, option) {
  const base = votes.length - 1;
  if (option === base) return null;
  const [won, lost] = [votes[option][base], votes[base][option]];
  if (won < quorumVotes(poll)) return "quorum"; // [A.5.2]
  const needed = poll.ratios[option] * lost;
  const isMajority = poll.isMoreThan ? won > needed : won >= needed && won > lost; // [A.5.3]
  return isMajority ? null : "majority";
}

/** Whether each option transitively defeats each other one: by a chain of defeats. [A.5.5] */
function chains(size, defeats) {
  const leads = Array.from({ length: size }, () => new Array(size).fill(false));
  for (const [a, b] of defeats) leads[a][b] = true;
  for (let by = 0; by < size; by++) {
    for (let a = 0; a < size; a++) {
      for (let b = 0; b < size; b++) leads[a][b] = leads[a][b] || (leads[a][by] && leads[by][b]);
    }
  }
  return leads;
}

/** Whether the defeat of x by a is weaker than that of y by b: fewer votes are for it, or as many,
    and more against it. [A.5.7] */
function isWeaker(votes, [a, x], [b, y]) {
  return votes[a][x] < votes[b][y] || (votes[a][x] === votes[b][y] && votes[x][a] > votes[y][b]);
}

/** What the votes come to before any casting vote; `set` are the options that are left. */
function outcomeOf(poll, votes) {
  const causes = votes.map((_, option) => causeOf(poll, votes, option));
  const kept = [...votes.keys()].filter((option) => causes[option] === null);
  const pairs = kept.flatMap((a) => kept.map((b) => [a, b]));
  const defeats = pairs.filter(([a, b]) => votes[a][b] > votes[b][a]); // [A.5.4]
  const rounds = [];
  for (let left = defeats; ;) {
    const leads = chains(votes.length, left);
    const set = kept.filter((a) => kept.every((b) => leads[a][b] || !leads[b][a])); // [A.5.6]
    const within = left.filter(([a, b]) => set.includes(a) && set.includes(b));
    const removed = within.filter((one) => !within.some((other) => isWeaker(votes, other, one)));
    rounds.push({ set, removed }); // [A.5.7]
    if (removed.length === 0) return { causes, defeats, rounds, set };
    left = left.filter((defeat) => !removed.includes(defeat));
  }
}

/* ---- The sheet ------------------------------------------------------------------------------ */

const wide = (text, places) => String(text).padStart(places);
const numbered = (options) => options.map((option) => option + 1).join(" ");
const orNone = (lines) => (lines.length > 0 ? lines : ["  none"]);

/** All lines of the sheet but the last, the only one that depends on the casting vote. */
function sheetAbove(poll, tally, { causes, defeats, rounds }) {
  const { names } = poll;
  const { votes } = tally;
  const cells = (row, a) => row.map((cell, b) => wide(a === b ? "-" : cell, 6)).join("");
  const dropped = causes.map((cause, i) => cause && `${wide(i + 1, 3)} ${cause}`);
  return [
    `Poll: ${poll.title}`,
    `Electors: ${poll.electors.size}`,
    `Quorum: ${poll.quorum}Q, ${quorumVotes(poll)} votes`,
    ...(poll.isMoreThan ? ["Majority: more than"] : []),
    `Lines: ${tally.lines}`,
    ...(poll.last === null ? [] : [`Last envelope: ${poll.last}`]),
    `Valid: ${tally.valid}`,
    `Refused: ${tally.lines - tally.valid}`,
    `Voters: ${tally.voters}`,
    "Options:",
    ...poll.ratios.map((ratio, i) => `${wide(i + 1, 3)} ratio ${ratio} ${names[i]}`),
    `${wide(names.length, 3)} default ${names[names.length - 1]}`,
    "Votes:",
    "   " + names.map((_, b) => wide(b + 1, 6)).join(""),
    ...votes.map((row, a) => wide(a + 1, 3) + cells(row, a)),
    "Dropped:",
    ...orNone(dropped.filter((line) => line !== null)),
    "Defeats:",
    ...orNone(defeats.map(([a, b]) =>
      `${wide(a + 1, 3)} over ${b + 1} by ${votes[a][b]} to ${votes[b][a]}`)),
    ...rounds.flatMap(({ set, removed }, i) => [
      `Round ${i + 1}: ${numbered(set)}`,
      ...removed.map(([a, b]) => `  drop ${a + 1} over ${b + 1}`),
    ]),
  ];
}

/** The last line of the sheet, and the status of the count. Without a casting vote it is null.
    [A.5.8] */
function decision(poll, set, casting) {
  const winner = set.length === 1 ? set[0] : casting;
  if (set.includes(winner)) {
    const how = set.length === 1 ? "" : " by casting vote";
    return { line: `Winner: ${winner + 1} ${poll.names[winner]}${how}`, status: 0 };
  }
  if (casting === null) return { line: `Tie: ${numbered(set)}`, status: 1 };
  const outside = `, casting option ${casting + 1} is not among them`;
  return { line: `Tie: ${numbered(set)}${outside}`, status: 8 };
}

/** Compares a sheet with the count, which begins with these lines: the casting vote with which both
    are the same, or the first line that differs from the sheet that agrees longest. */
function compare(poll, above, set, sheet) {
  const given = sheet.match(/[^\n]*\n|[^\n]+$/g) || [];
  let nearest = { at: -1 };
  for (const casting of [null, ...poll.names.keys()]) {
    const counted = [...above, decision(poll, set, casting).line].map((line) => line + "\n");
    let at = 0;
    while (at < counted.length && given[at] === counted[at]) at += 1;
    if (at === counted.length && at === given.length) return { isSame: true, casting };
    if (at > nearest.at) nearest = { isSame: false, at, given: given[at], counted: counted[at] };
  }
  return nearest;
}

/** The first 120 bytes of a line, and by its number each that is no plain character. */
function shown(line) {
  const hex = (byte) => byte.charCodeAt(0).toString(16).toUpperCase().padStart(2, "0");
  if (line === undefined) return "(end)";
  return line.replace(/\n$/, "").slice(0, 120).replace(/[^ -~]/g, (byte) => "\\x" + hex(byte));
}

/* ---- At a terminal -------------------------------------------------------------------------- */

const COMMANDS = {
  count: ["--poll", "--ballots", "--casting"],
  standing: ["--poll", "--ballots"],
  verify: ["--poll", "--ballots", "--sheet"],
};
const USAGE = `usage: nodejs - count --poll FILE --ballots FILE [--casting NAME] < recount.js
       nodejs - standing --poll FILE --ballots FILE < recount.js
       nodejs - verify --poll FILE --ballots FILE --sheet FILE < recount.js`;

function flagsOf(command, words) {
  const known = Object.hasOwn(COMMANDS, command || "") ? COMMANDS[command] : [];
  const flags = new Map();
  for (let i = 0; i < words.length; i += 2) {
    const isRight = known.includes(words[i]) && !flags.has(words[i]) && i + 1 < words.length;
    if (!isRight) throw new Fault(USAGE, 2);
    flags.set(words[i], words[i + 1]);
  }
  const isThere = (flag) => flag === "--casting" || flags.has(flag);
  if (known.length === 0 || !known.every(isThere)) throw new Fault(USAGE, 2);
  return flags;
}

/** What a command writes, and its status. */
function perform(command, flags, readFile) {
  const pollBytes = readFile(flags.get("--poll"), "poll", MOST_POLL_BYTES, 3);
  const ballotBytes = readFile(flags.get("--ballots"), "ballots", MOST_BALLOT_BYTES, 4);
  const sheetName = flags.get("--sheet");
  const sheet = sheetName === undefined ? null : readFile(sheetName, "sheet", MOST_POLL_BYTES, 10);
  const poll = readPoll(pollBytes);
  const casting = flags.has("--casting") ? poll.names.indexOf(flags.get("--casting")) : null;
  if (casting === -1) throw new Fault("casting option is not in the poll", 8);
  const steps = count(poll, ballotBytes);
  let step = steps.next();
  while (!step.done) step = steps.next();
  const tally = step.value;
  const why = whyNotSecret(poll, tally);
  if (why !== null) throw new Fault("this is no published secret vote: " + why, 9);
  if (command === "standing") {
    const ballots = tally.standing.filter((ballot) => ballot !== null);
    return { text: ballots.map((ballot) => ballot.line + "\n").join(""), status: 0 };
  }
  const outcome = outcomeOf(poll, tally.votes);
  const above = sheetAbove(poll, tally, outcome);
  if (command === "count") {
    const { line, status } = decision(poll, outcome.set, casting);
    return { text: [...above, line, ""].join("\n"), status };
  }
  const found = compare(poll, above, outcome.set, textOf(sheet));
  if (found.isSame) {
    const option = found.casting;
    const by = option === null ? "" : `, casting vote ${option + 1} ${poll.names[option]}`;
    return { text: `verified${by}\n`, status: 0 };
  }
  const [one, other] = [shown(found.given), shown(found.counted)];
  return { text: `differs at line ${found.at + 1}\nsheet: ${one}\ncount: ${other}\n`, status: 9 };
}

function main() {
  const fs = require("fs");
  const readFile = (name, what, most, status) => {
    let bytes = null;
    try {
      bytes = fs.readFileSync(name);
    } catch (error) {
      throw new Fault(what + " unreadable", status);
    }
    if (bytes.length > most) throw new Fault(what + " too long", status);
    return bytes;
  };
  const stop = ({ message, status }) => {
    process.stderr.write((status === 2 ? "" : "debvote: ") + message + "\n");
    process.exitCode = status;
  };
  process.stdout.on("error", () => stop(new Fault("output failed", 7)));
  try {
    const [command, ...words] = process.argv.slice(2);
    const { text, status } = perform(command, flagsOf(command, words), readFile);
    process.exitCode = status;
    process.stdout.write(text);
  } catch (error) {
    if (!(error instanceof Fault)) throw error;
    stop(error);
  }
}

// read from a file, or from standard input; a module has no `this`
if (typeof require === "function" && typeof module === "object") {
  if (require.main === module || require.main === undefined) main();
} else if (this === undefined) {
  throw new Error("a package.json makes this a module: run it as nodejs - .. < recount.js");
}
