// Seals a text to a public point. The page of a vote with a web box has it, for box.js and layers.js.

// The point of a new key pair, and behind it what is sealed; and its private key, if that may be told. Each key pair seals once, so the
// nonce may be zero.
async function sealedTo(to, purpose, additional, inside, isTold = false) {
  const { subtle } = crypto;
  const { publicKey, privateKey } = await subtle.generateKey(CURVE, isTold, ["deriveBits"]);
  const own = new Uint8Array(await subtle.exportKey("raw", publicKey));
  const ecdh = { ...CURVE, public: await subtle.importKey("raw", to, CURVE, false, []) };
  const shared = await subtle.importKey("raw", await subtle.deriveBits(ecdh, privateKey, 256), "HKDF", false, ["deriveKey"]);
  const info = new Uint8Array([...bytesOf(`${purpose}\n`), ...own, ...to]);
  const hkdf = { name: "HKDF", hash: "SHA-256", salt: new Uint8Array(), info };
  const key = await subtle.deriveKey(hkdf, shared, GCM, false, ["encrypt"]);
  const gcm = { ...GCM, iv: new Uint8Array(12), additionalData: bytesOf(additional) };
  const data = new Uint8Array(await subtle.encrypt(gcm, key, inside));
  return { sealed: new Uint8Array([...own, ...data]), privateKey };
}
