"use strict";
// nothing of the page needs this: it makes keys and clicks say the same, and leads Enter on
const questions = [...document.querySelectorAll("fieldset[data-label]")];
const first = (question) => question?.querySelector(".keys input") ?? question?.querySelector("input[type=radio]");
for (const [place, question] of questions.entries()) {
  const keys = question.querySelector(".keys input");
  const form = question.closest("form");
  const onward = () => (first(questions[place + 1]) ?? form.querySelector(".actions button"))?.focus();
  if (!keys) {
    // a motion: the first letter of its word
    question.addEventListener("keydown", (event) => {
      const radio = question.querySelector(`input[data-key="${CSS.escape(event.key)}"]`);
      if (radio) radio.checked = true;
      if (radio || event.key === "Enter") { event.preventDefault(); onward(); }
    });
    continue;
  }
  const rows = [...question.querySelectorAll("div.rank")];
  const chosen = (row) => row.querySelector("input:checked")?.value ?? "";
  question.addEventListener("change", (event) => {
    if (event.target === keys) return;
    const ranks = rows.map(chosen);
    keys.value = ranks.some(Boolean) ? ranks.map((rank) => rank || "-").join(",") : "";
  });
  const ranksOf = (text) => text.includes(",") ? text.split(",") : [...text.replace(/\s/g, "")];
  keys.addEventListener("input", () => {
    const ranks = ranksOf(keys.value);
    rows.forEach((row, option) => {
      for (const input of row.querySelectorAll("input")) input.checked = input.value === (ranks[option] ?? "").trim();
    });
  });
  keys.addEventListener("keydown", (event) => {
    if (event.key === "Enter" && questions[place + 1]) { event.preventDefault(); onward(); }
  });
  // 213- is 2,1,3,-
  form.addEventListener("submit", () => { if (keys.value) keys.value = ranksOf(keys.value).join(","); });
}
// a name and Enter lead to the ranks
document.getElementById("Name")?.addEventListener("keydown", (event) => {
  const field = first(questions[0]);
  if (event.key === "Enter" && field) { event.preventDefault(); field.focus(); }
});
document.addEventListener("keydown", (event) => {
  if (event.target.matches("input:not([type=radio]), textarea, select")) return;
  document.querySelector(`button[data-key="${CSS.escape(event.key)}"]`)?.click();
});
