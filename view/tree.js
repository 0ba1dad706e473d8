// The tree of objects, of which only the rows that are seen are made; and what starts the page.

const tree = byId("tree");
const openLeaves = new Set();
let leaves = [];

// Instances and devices stand open at first: what they own is what is asked for.
function openFirst() {
  run.objects.forEach((object, place) => {
    if (object.type === "Instance" || object.type === "Device") openLeaves.add(place);
  });
}

function listLeaves() {
  leaves = [];
  const waiting = roots.map((place) => [place, 1]).reverse();
  while (waiting.length) {
    const [place, level] = waiting.pop();
    leaves.push([place, level]);
    if (!openLeaves.has(place)) continue;
    for (let k = children[place].length - 1; k >= 0; k -= 1) waiting.push([children[place][k], level + 1]);
  }
  byId("tree-room").style.height = `${leaves.length * LEAF}px`;
  drawTree();
}

function leafNode([place, level], row) {
  const object = run.objects[place];
  const node = el("div", "leaf");
  const folds = children[place].length > 0;
  node.id = `leaf-${place}`;
  node.setAttribute("role", "treeitem");
  node.setAttribute("aria-level", String(level));
  node.setAttribute("aria-selected", String(place === state.object));
  if (folds) node.setAttribute("aria-expanded", String(openLeaves.has(place)));
  node.style.top = `${row * LEAF}px`;
  node.style.paddingLeft = `${(level - 1) * 14 + 2}px`;
  const line = el("div", "line");
  const fold = el("span", "fold", folds ? (openLeaves.has(place) ? "\u25be" : "\u25b8") : "");
  fold.addEventListener("click", (event) => { event.stopPropagation(); turn(place); });
  const when = object.ended === null ? `call ${object.born}, lives` : `calls ${object.born} to ${object.ended}`;
  line.append(fold, el("span", "who", ownerWords(object)), el("span", "when", when));
  node.append(line, lifeNode(object, (level - 1) * 14 + 20));
  node.addEventListener("click", () => { chooseObject(place); tree.focus({ preventScroll: true }); reveal(); });
  return node;
}

// How long an object lived, as a part of the whole run.
function lifeNode(object, left) {
  const whole = Math.max(1, run.events);
  const to = object.to === null ? whole : object.to;
  const bar = el("span");
  bar.style.left = `${object.from / whole * 100}%`;
  bar.style.width = `${Math.max(0, to - object.from) / whole * 100}%`;
  const life = el("div", "life", bar);
  life.style.left = `${left}px`;
  return life;
}

function drawTree() {
  const first = Math.max(0, Math.floor(tree.scrollTop / LEAF) - 4);
  const last = Math.min(leaves.length, Math.ceil((tree.scrollTop + tree.clientHeight) / LEAF) + 4);
  const nodes = [];
  for (let row = first; row < last; row += 1) nodes.push(leafNode(leaves[row], row));
  if (leaves.length === 0) nodes.push(el("p", "quiet", "No object was born."));
  byId("tree-room").replaceChildren(...nodes);
  tree.setAttribute("aria-activedescendant", state.object >= 0 ? `leaf-${state.object}` : "");
}

function turn(place) {
  if (openLeaves.has(place)) openLeaves.delete(place); else openLeaves.add(place);
  listLeaves();
}

// Opens what owns an object and brings its row into view.
function openTo(place) {
  for (let owner = run.objects[place].owner; owner !== null; owner = run.objects[owner].owner) openLeaves.add(owner);
  listLeaves();
  const row = leaves.findIndex(([leaf]) => leaf === place);
  if (row * LEAF < tree.scrollTop || (row + 1) * LEAF > tree.scrollTop + tree.clientHeight) {
    tree.scrollTop = row * LEAF - tree.clientHeight / 2;
  }
  drawTree();
}

function treeKeys(event) {
  const row = leaves.findIndex(([leaf]) => leaf === state.object);
  const place = state.object;
  const go = (to) => { if (leaves[to]) chooseObject(leaves[to][0]); };
  const acts = {
    ArrowDown: () => go(row + 1), ArrowUp: () => go(Math.max(0, row - 1)),
    Home: () => go(0), End: () => go(leaves.length - 1),
    ArrowRight: () => (row >= 0 && children[place].length && !openLeaves.has(place) ? turn(place) : go(row + 1)),
    ArrowLeft: () => {
      if (row < 0) return;
      if (openLeaves.has(place) && children[place].length) turn(place);
      else if (run.objects[place].owner !== null) chooseObject(run.objects[place].owner);
    },
    Enter: () => byId("detail").focus(),
  };
  if (!acts[event.key] || event.ctrlKey || event.altKey || event.metaKey) return;
  event.preventDefault();
  acts[event.key]();
}

const filled = (colour, top, height) => (onto) => {
  onto.fillStyle = colour;
  onto.fillRect(0, top, 16, height);
};

function showLegend() {
  const list = byId("legend");
  list.replaceChildren();
  const sample = (paint, text) => {
    const small = el("canvas");
    small.width = 32;
    small.height = 28;
    const onto = small.getContext("2d");
    onto.scale(2, 2);
    paint(onto);
    small.setAttribute("aria-hidden", "true");
    list.append(el("li", "", small, text));
  };
  KINDS.forEach((kind, k) => {
    if (calls.kinds.includes(k)) sample(filled(colours[kind], 2, 10), KIND_WORDS[k]);
  });
  if (calls.skipped.includes(1)) sample((onto) => hatch(onto, 0, 2, 16, 10, colours.text), "skipped (in any colour)");
  const rules = new Set(run.reports.map((report) => report.rule));
  Object.entries(RULES).forEach(([rule, text]) => {
    if (rules.has(rule)) sample((onto) => drawMark(onto, rule, 8, 7, colours.mark, colours.panel), text);
  });
  sample(filled(colours.used, 9, 4), "uses the chosen object, or was found");
}

function listen() {
  pointers();
  canvas.addEventListener("wheel", wheel, { passive: false });
  box.addEventListener("keydown", keys);
  box.addEventListener("scroll", draw);
  tree.addEventListener("keydown", treeKeys);
  tree.addEventListener("scroll", () => requestAnimationFrame(drawTree));
  byId("whole").addEventListener("click", () => look(0, run.events));
  byId("out").addEventListener("click", () => zoom(2));
  byId("in").addEventListener("click", () => zoom(0.5));
  byId("previous").addEventListener("click", () => stepReport(-1));
  byId("next").addEventListener("click", () => stepReport(1));
  byId("where").addEventListener("input", (event) => {
    const span = state.to - state.from;
    const from = Number(event.target.value) / 1000 * (Math.max(run.events, 4) - span);
    look(from, from + span);
  });
  let pause = 0;
  byId("find").addEventListener("input", () => { clearTimeout(pause); pause = setTimeout(search, 120); });
  const again = () => { readColours(); measure(); showLegend(); drawTree(); draw(); };
  addEventListener("resize", again);
  matchMedia("(prefers-color-scheme: dark)").addEventListener("change", again);
}

readColours();
showHead();
showReports();
showChain();
showLegend();
openFirst();
listen();
measure();
listLeaves();
drawNow();
document.documentElement.dataset.ready = "yes";
