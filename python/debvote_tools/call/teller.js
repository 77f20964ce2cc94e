// The page of a teller, which sends nothing: makes a key, looks at a page of a vote, opens a list, and looks for a ballot in lists.
"use strict";

(() => {
  const SIGNS = "23456789abcdefghjkmnpqrstuvwxyz";
  const SIGNING = { name: "ECDSA", namedCurve: "P-256" };
  const BY_SHA = { name: "ECDSA", hash: "SHA-256" };
  // the order of the group of P-256; in bytes, a point; in signs, a layer
  const ORDER = 0xffffffff00000000ffffffffffffffffbce6faada7179e84f3b9cac2fc632551n;
  const POINT = 65;
  const LAYER = 108;
  const FEWEST = 5;
  const HEAD = /^debvote urn 1 ([0-9a-f]{16}) ([0-3]) (0|[1-9][0-9]{0,5}) ([0-9a-f]{64})$/;
  const OPENED = new RegExp(`^[${SIGNS}]{8} ((?:-|[1-9][0-9]?)(?:,(?:-|[1-9][0-9]?))+)$`);
  const NAME = /^[a-z0-9.-]{1,32}$/;
  // the line of the page that says to whom it seals
  const LINE = /<script>(const TELLERS = "([a-z0-9.-]{1,32} [\w-]{87}(?: [a-z0-9.-]{1,32} [\w-]{87}){1,2})";)<\/script>/g;
  const FREE = / (data-title|data-mark|data-page|data-seal|data-until|data-to|aria-label)="[^"]*"/g;
  const NUMBERED = / (name|value|id)="[^"]*"/g;

  const { subtle } = crypto;
  const byId = (id) => document.getElementById(id);
  const words = JSON.parse(byId("Words").dataset.words);
  // of the pages of this version: what stands before all that varies, the digests of their styles and of their script, and of their tags
  const { before, styles, script, tags, version } = byId("Words").dataset;
  const sentence = (key, places = {}) => words[key].replace(/\{(\w+)\}/g, (all, place) => places[place] ?? all);
  const say = (id, ...lines) => byId(id).replaceChildren(...lines.flatMap((line) => [line, document.createElement("br")]));

  class Refused extends Error {}
  const demand = (isRight, key, places) => {
    if (!isRight) throw new Refused(sentence(key, places));
  };

  // ---- bytes and texts
  const digestOf = async (bytes) => hexOf(await subtle.digest("SHA-256", bytes));
  const grouped = (digits, sign) => digits.match(/.{4}/g).join(sign);
  const fingerprint = async (point) => grouped((await digestOf(bytesIn(point))).slice(0, 16), "-");
  const textOf = (bytes) => new TextDecoder("utf-8", { fatal: true, ignoreBOM: true }).decode(bytes);
  const numberOf = (bytes) => BigInt(`0x${hexOf(bytes)}`);
  const isSorted = (lines) => lines.every((line, place) => place === 0 || lines[place - 1] < line);

  // The bytes of a text that is the only one for them.
  function bytesIn(text) {
    demand(/^[\w-]+$/.test(text) && text.length % 4 !== 1, "form");
    const bytes = pointIn(text);
    demand(base64Of(bytes) === text, "form");
    return bytes;
  }

  const filesOf = (...ids) => ids.flatMap((id) => [...byId(id).files]);
  const linesOf = async (file) => {
    const lines = textOf(await file.arrayBuffer()).split("\n");
    demand(lines.pop() === "", "form");
    return lines;
  };

  function offer(id, name, text) {
    const link = byId(id);
    link.download = name;
    link.href = URL.createObjectURL(new Blob([text], { type: "text/plain" }));
  }

  // ---- keys
  // A private key in both of its uses, if it is that of a point.
  async function pairOf(point, key) {
    const [x, y, d] = [point.slice(1, 33), point.slice(33), key].map(base64Of);
    const jwk = { kty: "EC", crv: "P-256", x, y, d };
    const test = bytesOf("debvote");
    const pair = { opens: await subtle.importKey("jwk", jwk, CURVE, false, ["deriveBits"]) };
    pair.signs = await subtle.importKey("jwk", jwk, SIGNING, false, ["sign"]);
    const seen = await subtle.importKey("raw", point, SIGNING, false, ["verify"]);
    demand(await subtle.verify(BY_SHA, seen, await subtle.sign(BY_SHA, pair.signs, test), test), "key");
    return pair;
  }

  async function make() {
    const name = byId("Name").value.trim().toLowerCase();
    demand(NAME.test(name), "name");
    const { publicKey, privateKey } = await subtle.generateKey(CURVE, true, ["deriveBits"]);
    const point = base64Of(new Uint8Array(await subtle.exportKey("raw", publicKey)));
    const key = bytesIn((await subtle.exportKey("jwk", privateKey)).d);
    const half = crypto.getRandomValues(new Uint8Array(32));
    const other = half.map((byte, place) => byte ^ key[place]);
    const file = (kind, value) => `debvote ${kind} 1\n${name}\n${point}\n${base64Of(value)}\n`;
    offer("Key-file", `${name}.key`, file("key", key));
    offer("Half-1", `${name}.half-1`, file("half", half));
    offer("Half-2", `${name}.half-2`, file("half", other));
    byId("Made").hidden = false;
  }

  // Name, point and pair by a key, or by its two halves.
  async function keyIn(files) {
    const read = await Promise.all(files.map(linesOf));
    const kinds = read.map(([head]) => head).join();
    demand(["debvote key 1", "debvote half 1,debvote half 1"].includes(kinds) && read.every((lines) => lines.length === 4), "key");
    const [[, name, point]] = read;
    demand(NAME.test(name) && read.every((lines) => lines[1] === name && lines[2] === point), "key");
    const [key, other] = read.map(([, , , value]) => bytesIn(value));
    return { name, point, ...(await pairOf(bytesIn(point), other ? key.map((byte, place) => byte ^ other[place]) : key)) };
  }

  async function tryFiles() {
    const key = await keyIn(filesOf("Saved-key"));
    const halves = await keyIn(filesOf("Saved-halves"));
    demand(key.point === halves.point && key.name === halves.name, "key");
    say("Public", `${key.name} ${key.point}`);
    say("Fingerprint", await fingerprint(key.point));
    byId("Tried").hidden = false;
  }

  // ---- the page of the vote
  const plain = (text) => text.replace(/<[^>]*>/g, "").replace(/&(amp|lt|gt|#34|#39);/g, (all, sign) => ({ amp: "&", lt: "<", gt: ">", "#34": '"', "#39": "'" })[sign]);
  const sourceOf = async (text) => btoa(String.fromCharCode(...new Uint8Array(await subtle.digest("SHA-256", bytesOf(text)))));

  // The names and points to which a page seals, if it is one that this version makes for them.
  async function tellersOf(text) {
    const lines = [...text.matchAll(LINE)];
    demand(lines.length === 1 && !/[\x00-\x09\x0b-\x1f\x7f-\x9f]/.test(text), "page");
    const [[, line, tellers]] = lines;
    const source = await sourceOf(line);
    const beginnings = styles.split(" ").map((style) => style.split(":").concat(before.replace("LINE", source)));
    const [style, , start] = beginnings.map(([code, digest, text]) => [digest, code, text.replace("LANG", code).replace("STYLE", digest)]).find((one) => text.startsWith(one[2])) ?? [];
    demand(start && [source, script].every((digest) => text.split(digest).length === 2), "page");
    // what runs and what is applied is that of the digests; the rest is tags and texts
    const inner = [...text.slice(start.length).matchAll(/<(style|script)>([^]*?)<\/\1>/g)];
    const digests = await Promise.all(inner.map((part) => sourceOf(part[2])));
    demand(inner.map((part) => part[1]).join() === "style,script,script" && digests.join() === [style, source, script].join(), "page");
    const rest = inner.reduce((left, part) => left.replace(part[0], () => `<${part[1]}></${part[1]}>`), text.slice(start.length));
    const known = new Set(tags.split(" "));
    for (const tag of new Set(rest.match(/<[^>]*>?/g))) {
      const bare = tag.replace(FREE, ' $1=""').replace(NUMBERED, (all) => all.replace(/\d+/g, "0"));
      demand(known.has((await sourceOf(bare)).slice(0, 22)), "page");
    }
    return tellers.split(" ");
  }

  async function look() {
    const [file] = filesOf("Page");
    demand(file, "missing");
    const text = await file.arrayBuffer().then(textOf).catch(() => "");
    const line = byId("Line").value.trim();
    const own = line || (({ name, point }) => `${name} ${point}`)(await keyIn(filesOf("Look-key")));
    const tellers = await tellersOf(text);
    const pairs = tellers.flatMap((part, place) => (place % 2 ? [`${tellers[place - 1]} ${part}`] : []));
    const step = pairs.indexOf(own) + 1;
    demand(new Set(tellers).size === tellers.length && step > 0, "another");
    const prints = await Promise.all(pairs.map(async (pair) => `${pair.split(" ")[0]} ${await fingerprint(pair.split(" ")[1])}`));
    const names = [...text.matchAll(/<bdi class="name">([^<]*)</g)].map((found) => plain(found[1]));
    const title = plain(/<h1 dir="auto">([^<]*)</.exec(text)[1]);
    say("Looked", sentence("looked", { step, version }), title, ...names, ...prints, `SHA-256: ${await digestOf(await file.arrayBuffer())}`);
  }

  // ---- the lists
  async function listIn(file) {
    const bytes = new Uint8Array(await file.arrayBuffer());
    const text = textOf(bytes);
    const [head, ...lines] = text.split("\n");
    const found = HEAD.exec(head);
    demand(found && lines.pop() === "" && !text.includes("\r"), "form");
    const [mark, before] = [found[1], found[4]];
    const [step, count] = [Number(found[2]), Number(found[3])];
    const after = (beginning, line = "") => {
      demand(line.startsWith(beginning), "form");
      return line.slice(beginning.length);
    };
    const title = step === 0 ? after("title ", lines.shift()) : "";
    const tellers = [];
    while (step === 0 && lines[0]?.startsWith("teller ") && tellers.length < 4) tellers.push(after("teller ", lines.shift()).split(" "));
    const signature = step === 0 ? "" : after("signed ", lines.pop());
    const ballots = lines.slice(0, count);
    const refused = lines.slice(count).map((line) => after("! ", line));
    demand(lines.length >= count && isSorted(ballots) && isSorted(refused) && !(step === 0 && refused.length), "form");
    demand((step === 0) === (before === "0".repeat(64)), "form");
    const length = step === 0 ? bytes.length : bytes.length - bytesOf(`signed ${signature}\n`).length;
    const body = bytes.slice(0, length);
    return { mark, step, before, title, tellers, signature, ballots, refused, body, checksum: await digestOf(bytes), digest: await digestOf(body) };
  }

  // A signature in the one form in which it is taken.
  async function isSigned(point, signature, body) {
    const bytes = bytesIn(signature);
    const key = await subtle.importKey("raw", bytesIn(point), SIGNING, false, ["verify"]);
    return bytes.length === 64 && numberOf(bytes.slice(32)) <= (ORDER - 1n) / 2n && subtle.verify(BY_SHA, key, bytes, body);
  }

  function isOpened(line, options) {
    const ranks = OPENED.exec(line)?.[1].split(",") ?? [];
    const order = [...new Set(ranks)].filter((rank) => rank !== "-").sort((one, other) => one - other);
    return ranks.length === options && order.every((rank, place) => Number(rank) === place + 1);
  }

  // The lists in their order, if each is what its teller had to make of the one before.
  async function listsIn(files) {
    const lists = (await Promise.all(files.map(listIn))).sort((one, other) => one.step - other.step);
    const [first] = lists;
    demand(first && lists.every((list, step) => list.step === step && list.mark === first.mark), "missing");
    const { tellers } = first;
    demand([2, 3].includes(tellers.length) && new Set(tellers.flat()).size === 2 * tellers.length, "form");
    for (const [name, point, ...rest] of tellers) {
      demand(NAME.test(name) && bytesIn(point ?? "").length === POINT && rest.length === 0, "form");
      await subtle.importKey("raw", bytesIn(point), CURVE, false, []);
    }
    const signs = first.ballots[0]?.length ?? 0;
    first.options = signs / 4 - 3 - 27 * tellers.length;
    for (const [step, list] of lists.entries()) {
      const before = lists[step - 1];
      const [name, point] = tellers[step - 1] ?? [];
      if (before) {
        demand(await isSigned(point, list.signature, list.body), "unsigned", { name });
        const names = { name, other: tellers[step - 2]?.[0] ?? words.secretary, list: `list-${step - 1}.txt` };
        demand(list.before === before.digest, "other", names);
        const isWhole = list.ballots.length + list.refused.length === before.ballots.length;
        demand(isWhole && list.refused.every((block) => before.ballots.includes(block)), "count", { name });
      }
      const isLast = step === tellers.length;
      const isRight = (line) => (isLast ? isOpened(line, first.options) : line.length === signs - LAYER * step && bytesIn(line).length > 0);
      demand(list.ballots.every(isRight), "form");
    }
    return lists;
  }

  // What is in a block, by one of the two private keys and the point of the other one.
  async function insideOf(key, other, step, to, mark, block) {
    const own = block.slice(0, POINT);
    const ecdh = { ...CURVE, public: await subtle.importKey("raw", other, CURVE, false, []) };
    const shared = await subtle.importKey("raw", await subtle.deriveBits(ecdh, key, 256), "HKDF", false, ["deriveKey"]);
    const info = new Uint8Array([...bytesOf(`debvote teller ${step}\n`), ...own, ...to]);
    const hkdf = { name: "HKDF", hash: "SHA-256", salt: new Uint8Array(), info };
    const one = await subtle.deriveKey(hkdf, shared, GCM, false, ["decrypt"]);
    const gcm = { ...GCM, iv: new Uint8Array(12), additionalData: bytesOf(mark) };
    return new Uint8Array(await subtle.decrypt(gcm, one, block.slice(POINT)));
  }

  // The line that a list has of what is in a block; nothing if that is no ballot.
  function lineOf(inside, isLast, options) {
    if (!isLast) return base64Of(inside);
    const text = String.fromCharCode(...inside).replace(/\n+$/, "");
    return isOpened(text, options) && inside.length === 3 * (3 + options) ? text : null;
  }

  // Who voted, in which way, and how many slips were spoilt.
  async function votedIn(file, count) {
    const rows = (await linesOf(file)).map((line) => line.split(" "));
    const isRight = rows.every(([name, how, ...rest]) => NAME.test(name) && ["click", "paper"].includes(how) && rest.length === 0);
    demand(isRight && isSorted(rows.map(([name]) => name)), "form");
    const [clicks, paper] = ["click", "paper"].map((how) => rows.filter((row) => row[1] === how).map(([name]) => name));
    const spoilt = rows.length - count;
    demand(spoilt >= 0 && spoilt <= paper.length, "voted");
    return { clicks, paper, spoilt };
  }

  const typed = (id) => byId(id).value.replace(/\s/g, "").toLowerCase();

  async function open() {
    byId("Done").hidden = true;
    const lists = await listsIn(filesOf("Lists"));
    const [voted] = filesOf("Voted");
    demand(voted, "missing");
    const [first] = lists;
    const last = lists.at(-1);
    const { mark, tellers, options } = first;
    const voters = await votedIn(voted, first.ballots.length);
    const votedChecksum = await digestOf(await voted.arrayBuffer());
    const names = await Promise.all(tellers.map(async ([name, point]) => `${name} ${await fingerprint(point)}`));
    const refused = lists.slice(1).map((list) => `${tellers[list.step - 1][0]}: ${list.refused.length}`);
    const counts = { count: first.ballots.length, clicks: voters.clicks.length, paper: voters.paper.length, spoilt: voters.spoilt };
    say("Shown", first.title, ...names, sentence("counts", counts), `${words.by_click} ${voters.clicks.join(", ")}`, `${words.on_paper} ${voters.paper.join(", ")}`, `${words.refused} ${refused.join(", ") || "-"}`);
    demand(typed("Checksum") === first.checksum && typed("Voted-checksum") === votedChecksum, "checksum");
    demand(byId("Newest").checked, "newest");
    const own = await keyIn(filesOf("Key"));
    const [name, point] = tellers[last.step] ?? [];
    demand(own.name === name && own.point === point, "turn", { name: name ?? "-" });
    demand(lists.every((list) => list.ballots.length >= FEWEST), "few");
    demand([null, last.digest].includes(noted(own.point)), "twice");
    const made = await opened(own, last, tellers.length, mark, options);
    demand(made.ballots.length >= FEWEST, "few");
    const body = [`debvote urn 1 ${mark} ${last.step + 1} ${made.ballots.length} ${last.digest}`, ...made.ballots, ...made.refused.map((block) => `! ${block}`), ""].join("\n");
    const text = `${body}signed ${await signed(own.signs, body)}\n`;
    noted(own.point, last.digest);
    offer("List-file", `list-${last.step + 1}.txt`, text);
    const sums = [["list-0.txt", first.checksum], ["voted.txt", votedChecksum], [`list-${last.step + 1}.txt`, await digestOf(bytesOf(text))]];
    say("Opened", sentence("opened", { number: made.ballots.length, refused: made.refused.length }), ...sums.map(([file, sum]) => `${file}: ${grouped(sum.slice(0, 32), " ")}`));
    byId("Done").hidden = false;
  }

  // The next list: what is in the blocks, sorted, and the blocks that open to nothing, or to what was there already.
  async function opened(own, last, number, mark, options) {
    const step = last.step + 1;
    const to = bytesIn(own.point);
    const insides = await Promise.all(
      last.ballots.map((line) => {
        const block = bytesIn(line);
        return insideOf(own.opens, block.slice(0, POINT), step, to, mark, block).catch(() => null);
      }),
    );
    const ballots = new Set();
    const refused = [];
    for (const [place, inside] of insides.entries()) {
      const line = inside && lineOf(inside, step === number, options);
      if (!line || ballots.has(line)) refused.push(last.ballots[place]);
      else ballots.add(line);
    }
    return { ballots: [...ballots].sort(), refused };
  }

  // Of the two signatures that differ in the sign of s the one with the smaller.
  async function signed(key, body) {
    const bytes = new Uint8Array(await subtle.sign(BY_SHA, key, bytesOf(body)));
    const s = numberOf(bytes.slice(32));
    const low = (s > (ORDER - 1n) / 2n ? ORDER - s : s).toString(16).padStart(64, "0");
    return base64Of(new Uint8Array([...bytes.slice(0, 32), ...low.match(/../g).map((digits) => parseInt(digits, 16))]));
  }

  // What this browser noted of a key, which reminds and guards nothing.
  function noted(point, digest) {
    try {
      if (digest) localStorage.setItem(`debvote ${point}`, digest);
      return localStorage.getItem(`debvote ${point}`);
    } catch {
      return null;
    }
  }

  // ---- one's own ballot
  async function find() {
    const lists = await listsIn(filesOf("All-lists"));
    const [file] = filesOf("Ballot-file");
    demand(file, "missing");
    const [{ mark, tellers, options, ballots }] = lists;
    const [head, ...rows] = await linesOf(file);
    const line = rows.pop();
    const steps = rows.map((row) => row.split(" "));
    demand(head === `debvote ballot 1 ${mark}` && steps.length === tellers.length && isOpened(line, options), "nothing");
    const next = [...steps.slice(1).map(([, block]) => block), line];
    for (const [place, [step, text, key]] of steps.entries()) {
      const [block, to] = [bytesIn(text), bytesIn(tellers[place][1])];
      const pair = await pairOf(block.slice(0, POINT), bytesIn(key)).catch(() => null);
      const inside = pair && (await insideOf(pair.opens, to, place + 1, to, mark, block).catch(() => null));
      const found = inside && lineOf(inside, place + 1 === tellers.length, options);
      demand(step === String(place + 1) && found === next[place], "nothing");
    }
    demand(ballots.includes(steps[0][1]), "left_out");
    for (const [place, list] of lists.slice(1).entries()) demand(list.ballots.includes(next[place]), "lost", { name: tellers[place][0], step: place + 1 });
    say("Found", sentence("found", { line, number: lists.length }));
  }

  // ---- the buttons
  const does = (button, place, work) =>
    byId(button).addEventListener("click", () => {
      say(place, words.working);
      const why = (error) => (error instanceof Refused ? error.message : words.form);
      work().then(
        () => say(place),
        (error) => say(place, why(error)),
      );
    });

  does("Make", "Make-said", make);
  does("Try", "Try-said", tryFiles);
  does("Look", "Look-said", async () => {
    say("Looked");
    await look();
  });
  does("Open", "Open-said", open);
  does("Find", "Find-said", async () => {
    say("Found");
    await find();
  });
})();
