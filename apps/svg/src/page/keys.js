// Keys. Tab goes from word to word by number, as the browser does; the arrow keys go to the next word in the picture.

// Which words lie in a key's direction: up and down in the same line, left and right in the other lines.
const TOWARDS = {
  ArrowUp: (across, up) => across === 0 && up > 0,
  ArrowDown: (across, up) => across === 0 && up < 0,
  ArrowLeft: (across) => across < 0,
  ArrowRight: (across) => across > 0,
};

// The word next to one in a direction: of the nearest line, in the nearest row. Where there is none, the word itself.
function next(word, towards) {
  const way = (other) => [
    other.dataset.column - word.dataset.column,
    other.dataset.row - word.dataset.row,
  ];
  const far = (other) => way(other).map(Math.abs);
  const ahead = words.filter((other) => towards(...way(other)));
  return ahead.reduce((best, other) => {
    const [across, up] = far(other);
    const [bestAcross, bestUp] = far(best);
    return across < bestAcross || (across === bestAcross && up < bestUp) ? other : best;
  }, ahead[0] ?? word);
}

// What a key does to the word that has the focus; nothing for other keys.
function action(key, word) {
  if (key === "Enter" || key === " ") {
    return () => pick(word);
  }
  if (key === "Home" || key === "End") {
    return () => words.at(key === "Home" ? 0 : -1).focus();
  }
  return key in TOWARDS ? () => next(word, TOWARDS[key]).focus() : undefined;
}

document.addEventListener("keydown", (event) => {
  if (event.altKey || event.ctrlKey || event.metaKey) {
    return;
  }
  if (event.key === "Escape") {
    clear();
    return;
  }
  const word = event.target.closest(".word");
  const act = word && action(event.key, word);
  if (act) {
    event.preventDefault();
    // A key held down moves on, and picks once.
    if (!event.repeat || event.key in TOWARDS) {
      act();
    }
  }
});
