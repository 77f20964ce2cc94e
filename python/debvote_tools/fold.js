// Opens the folded part that a link or the address of the page leads to, and all of them on paper. Without it they open by hand.
"use strict";

(() => {
  function unfold(place) {
    const node = document.getElementById(place);
    for (let part = node?.closest("details"); part; part = part.parentElement.closest("details")) part.open = true;
    return node;
  }

  // the ballot of an elector is shown above, but in a secret vote
  function unfoldNamed() {
    const place = placeNamed();
    const isShown = document.querySelector(".mine") && document.getElementById(place)?.closest(".ballots, .roll");
    if (!isShown) unfold(place)?.scrollIntoView();
  }

  // a link to the part that the address names already changes no address
  addEventListener("click", (event) => {
    const link = event.target.closest('a[href^="#"]');
    if (link) unfold(link.getAttribute("href").slice(1));
  });
  addEventListener("hashchange", unfoldNamed);
  unfoldNamed();

  let folded = [];
  addEventListener("beforeprint", () => {
    folded = [...document.querySelectorAll("details:not([open])")];
    for (const part of folded) part.open = true;
  });
  addEventListener("afterprint", () => {
    for (const part of folded) part.open = false;
  });
})();
