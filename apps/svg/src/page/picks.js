// The picks, and what the page shows of them. After two picks the next one is a first pick again.

const arrows = JSON.parse(document.getElementById("arrows").textContent);
const chart = document.getElementById("chart");
const line = document.getElementById("answer");
const words = [...chart.querySelectorAll(".word")];
const strokes = [...chart.querySelectorAll(".arrow")];
let picks = [];

function pick(word) {
  picks = [...(picks.length < 2 ? picks : []), words.indexOf(word)];
  show();
}

function clear() {
  picks = [];
  show();
}

function show() {
  const [first, second] = picks;
  words.forEach((word, number) => {
    word.classList.toggle("first", number === first);
    word.classList.toggle("second", number === second);
    word.setAttribute("aria-pressed", picks.includes(number));
  });
  const found = picks.length === 2 ? routes(first, second, arrows) : { lit: [] };
  const lit = found.lit.filter((is) => is).length;
  strokes.forEach((stroke) => stroke.classList.toggle("lit", found.lit[stroke.dataset.arrow] === true));
  chart.classList.toggle("lights", lit > 0);
  line.replaceChildren(...said(first, second, found.answer, lit));
}

// A word's number, with its floor where words have floors.
function named(number) {
  const { floor } = words[number].dataset;
  return floor === undefined ? `${number}` : `${number} (floor ${floor})`;
}

// The parts of the answer's line.
function said(first, second, answer, lit) {
  if (first === undefined) {
    return ["Pick a word, then a second one, to see how the first leads to the second."];
  }
  if (second === undefined) {
    return [`Word ${named(first)} is picked. Pick a second word.`];
  }
  const strong = document.createElement("strong");
  strong.textContent = answer;
  const count = lit === 0 ? "no arrow" : lit === 1 ? "1 arrow" : `${lit} arrows`;
  return [`Word ${named(first)} leads to word ${named(second)}: `, strong, ` (${count} lit)`];
}

chart.addEventListener("click", (event) => {
  const word = event.target.closest(".word");
  if (word) {
    pick(word);
  }
});
document.getElementById("clear").addEventListener("click", clear);
show();
