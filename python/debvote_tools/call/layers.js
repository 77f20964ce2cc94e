// Only in a vote with tellers: seals the ranks, with a number that the elector alone knows, to the last teller, that to the one before,
// and so on, for box.js, which seals it to the secretary. TELLERS is the line above: by one of another form nothing is sealed.
{
  const SIGNS = "23456789abcdefghjkmnpqrstuvwxyz";
  const FORM = /^[a-z0-9.-]{1,32} [\w-]{87}(?: [a-z0-9.-]{1,32} [\w-]{87}){1,2}$/;
  const byId = (id) => document.getElementById(id);
  const form = byId("Ballot");
  const words = JSON.parse(form.dataset.words);
  const { mark } = form.dataset;
  const options = form.querySelectorAll(".option").length;
  const line = typeof TELLERS === "string" && FORM.test(TELLERS) ? TELLERS : "";
  // names and points by turns
  const tellers = line.split(" ");
  const points = tellers.filter((_, place) => place % 2).map(pointIn);

  // 8 signs, each as likely as every other one
  function drawn() {
    const bytes = [...crypto.getRandomValues(new Uint8Array(99))].filter((byte) => byte < 8 * SIGNS.length);
    return bytes.slice(0, 8).map((byte) => SIGNS[byte % SIGNS.length]).join("");
  }

  // Ranks that tell nothing but an order.
  function inOrder(ranks) {
    const given = ranks.split(",");
    const order = [...new Set(given)].filter((rank) => rank !== "-").sort((one, other) => one - other);
    return given.map((rank) => (rank === "-" ? rank : order.indexOf(rank) + 1)).join(",");
  }

  // What is sealed to the secretary. The ballot gets its number, and the file that shows who lost it.
  globalThis.layered = async (ballot, length) => {
    if (!line) throw new Error("TELLERS");
    const [name, ranks] = ballot.line.split(" ");
    ballot.number = drawn();
    const text = `${ballot.number} ${inOrder(ranks)}`;
    ballot.file = `${text}\n`;
    let block = bytesOf(text.padEnd(3 * (3 + options), "\n"));
    for (let step = points.length; step > 0; step -= 1) {
      const { sealed, privateKey } = await sealedTo(points[step - 1], `debvote teller ${step}`, mark, block, true);
      const { d } = await crypto.subtle.exportKey("jwk", privateKey);
      block = sealed;
      ballot.file = `${step} ${base64Of(block)} ${d}\n${ballot.file}`;
    }
    const sealed = base64Of(block);
    return `${name} 1,-,-\n${ballot.link}\n${ballot.time}\n${sealed}`.padEnd(3 * Math.ceil((length + sealed.length) / 3), "\n");
  };

  // The number of a ballot that has arrived, or may have; nothing of one by another link.
  globalThis.tellNumber = ({ number, file }, fate) => {
    const key = { received: "number", late: "number", unsure: "perhaps", over: "perhaps" }[fate];
    if (key || fate === false) byId("Numbered").hidden = !(key && number);
    if (!key || !number) return;
    byId("Number").textContent = words[key].replace("{number}", number);
    byId("File").href = `data:text/plain,${encodeURIComponent(`debvote ballot 1 ${mark}\n${file}`)}`;
  };

  points.forEach(async (point, place) => {
    // its place is in the order of the tellers, whichever digest is there first
    const said = byId("Keys").appendChild(document.createElement("p"));
    const digits = hexOf(await crypto.subtle.digest("SHA-256", point)).slice(0, 16);
    said.textContent = words.sealed_to.replace("{name}", tellers[2 * place]).replace("{fingerprint}", digits.match(/.{4}/g).join("-"));
  });
}
