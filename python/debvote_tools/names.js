// Finds the electors that somebody may mean by a name, as it is typed. The pages of the call and of the result share it.
"use strict";

// if more names begin with what is typed, none of them is suggested; nor if so many have it as their family name
const NEAR_LIMIT = 8;
const SAME_LIMIT = 50;

// letters that Unicode does not take apart into a letter and its accent
const LETTERS_APART = { ø: "o", ł: "l", đ: "d", ð: "d", þ: "th", æ: "ae", œ: "oe", ı: "i", ħ: "h", ŧ: "t", ß: "ss" };

// The letters and digits of a name, small and without accents.
function lettersOf(name) {
  // most names, and quickly
  if (/^[\x20-\x7e]*$/.test(name)) return name.toLowerCase().replace(/[^a-z0-9]/g, "");
  const plain = name.normalize("NFKD").toLowerCase().replace(/[øłđðþæœıħŧß]/g, (letter) => LETTERS_APART[letter]);
  return plain.replace(/[^\p{Letter}\p{Number}]/gu, "");
}

// A name as it is, and as German writes it without its dots: ä is ae.
function spellings(name) {
  const spelled = name.normalize("NFC").replace(/[äöü]/gi, "$&e");
  return spelled === name ? [name] : [name, spelled];
}

// The letters of a name from each of its words on: of Maria Muster "mariamuster" and "muster".
function endsOf(name) {
  const words = name.split(/[\s.,_-]+/).map(lettersOf).filter(Boolean);
  return words.map((word, at) => words.slice(at).join(""));
}

// How names are looked for among electors, each with the name on the roll and the real name if it is known. Of what is typed it says
// which electors it is the whole name of, and which ones it suggests: never one of several namesakes alone.
function finderOf(electors) {
  const known = electors.map((names) => ({
    name: names[0],
    wholes: names.flatMap(spellings).map(lettersOf),
    // without the number of a namesake
    shared: lettersOf(names[0].replace(/-[0-9]+$/, "")),
    ends: names.flatMap(spellings).flatMap((name) => endsOf(name.replace(/-[0-9]+$/, ""))),
  }));
  const namesOf = (some) => some.map(({ name }) => name);
  return (text) => {
    // the family name may come first
    const turned = text.split(",").reverse().join(" ");
    const forms = [...spellings(text), turned].map(lettersOf).filter(Boolean);
    const isForm = (key) => forms.includes(key);
    const isWhole = ({ wholes }) => wholes.some(isForm);
    const same = known.filter((one) => isWhole(one) || isForm(one.shared));
    if (same.length > 0) return { whole: namesOf(same.filter(isWhole)), suggested: namesOf(same) };
    // the family name alone, or what a name or a part of it begins with
    const ending = known.filter(({ ends }) => ends.some(isForm));
    const begun = known.filter(({ wholes, ends }) => [...wholes, ...ends].some((key) => forms.some((form) => key.startsWith(form))));
    const near = begun.length <= NEAR_LIMIT ? begun : ending;
    return { whole: [], suggested: near.length <= SAME_LIMIT ? namesOf(near) : [] };
  };
}

// The place that the address of the page names; some programs write its letters by their numbers.
function placeNamed() {
  const place = location.hash.slice(1);
  try {
    return decodeURIComponent(place);
  } catch {
    return place;
  }
}

// Nodes for a sentence with lists of nodes at its places.
function nodesOf(sentence, places) {
  return sentence.split(/(\{[a-z]+\})/).flatMap((part) => (part.startsWith("{") ? places[part.slice(1, -1)] : [part]));
}

// Buttons for names that are suggested, each of which does something with its name. They may show more than the name.
function suggestions(names, choose, shown = (name) => name) {
  return names.map((name) => {
    const button = document.createElement("button");
    button.type = "button";
    button.textContent = shown(name);
    button.addEventListener("click", () => choose(name));
    return button;
  });
}
