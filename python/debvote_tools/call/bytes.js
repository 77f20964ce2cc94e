// Bytes, points and texts. The pages that seal or open ballots share it.

const CURVE = { name: "ECDH", namedCurve: "P-256" };
const GCM = { name: "AES-GCM", length: 256 };

const bytesOf = (text) => new TextEncoder().encode(text);
const hexOf = (buffer) => [...new Uint8Array(buffer)].map((byte) => byte.toString(16).padStart(2, "0")).join("");
const base64Of = (bytes) => btoa(String.fromCharCode(...bytes)).replaceAll("+", "-").replaceAll("/", "_").replace(/=+$/, "");
const pointIn = (text) => Uint8Array.from(atob(text.replaceAll("-", "+").replaceAll("_", "/")), (sign) => sign.charCodeAt(0));
