// Shows in the panel what is said of a block, goes from block to block by arrow keys, and sets apart what a machine
// reaches. All that it shows is in the blocks' titles and classes.
const panel = document.getElementById("panel");
const pieces = [...document.querySelectorAll(".piece")];
const buttons = [...document.querySelectorAll("button")];

// An element with a text.
const element = (kind, text) => Object.assign(document.createElement(kind), { textContent: text });

// A fact, "name: fact", as a term and what it is.
function row(line) {
  const at = line.indexOf(": ");
  const pair = document.createElement("div");
  pair.append(element("dt", line.slice(0, at)), element("dd", line.slice(at + 2)));
  return pair;
}

// The block that an event is about stands in the panel.
function show(event) {
  const piece = event.target.closest(".piece");
  if (!piece) return;
  const [heading, ...facts] = piece.querySelector("title").textContent.split("\n");
  const list = document.createElement("dl");
  list.append(...facts.map(row));
  panel.replaceChildren(element("h2", heading), list);
}

// An arrow key at a block goes to the next one.
function go(event) {
  const here = pieces.indexOf(document.activeElement);
  const to = { ArrowLeft: here - 1, ArrowRight: here + 1, Home: 0, End: pieces.length - 1 }[event.key];
  if (here < 0 || !pieces[to]) return;
  event.preventDefault();
  pieces[to].focus();
}

// A machine's button sets apart what that machine reaches; the same button again, nothing.
function choose(event) {
  const button = event.target.closest("button");
  if (!button) return;
  const chosen = button.getAttribute("aria-pressed") !== "true";
  buttons.forEach((other) => other.setAttribute("aria-pressed", chosen && other === button));
  pieces.forEach((piece) => piece.classList.toggle("away", chosen && !piece.classList.contains(button.value)));
}

["pointerover", "focusin", "click"].forEach((kind) => document.addEventListener(kind, show));
document.addEventListener("keydown", go);
document.addEventListener("click", choose);
