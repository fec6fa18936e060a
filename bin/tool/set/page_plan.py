"""The script that shows a plan: its tree, as `cabal-plan tree` has it, and its picture, as `cabal-plan graph` has it."""

PLAN = r"""
const DEEPEST = 100, MOST_LINES = 3000, MOST_UNITS = 150, FEW_UNITS = 60, LONGEST = 44, GAP = 8, HEIGHT = 22, SIGN = 7.3, WAY = 46;

function make(name, of = {}, ...below) {
  return filled(document.createElement(name), of, below);
}

function drawn(name, of = {}, ...below) {
  return filled(document.createElementNS("http://www.w3.org/2000/svg", name), of, below);
}

function filled(it, of, below) {
  for (const [key, value] of Object.entries(of)) if (value !== false) it.setAttribute(key, value);
  it.append(...below.filter(it => it !== ""));
  return it;
}

// The nodes of a plan in build order: what each needs, and what needs it.
function nodesOf(plan, units) {
  const nodes = plan.nodes.map(([unit, place, ...needs], at) => {
    const [label, kind, isUnbuildable] = units[unit];
    return { at, label, kind: KINDS[kind], isUnbuildable, place, needs, users: [] };
  });
  for (const it of nodes) {
    for (const at of it.needs) nodes[at].users.push(it.at);
    it.sorted = [...it.needs].sort((one, other) => nodes[one].place - nodes[other].place);
  }
  return nodes;
}

function nodeText(node, end) {
  const kind = node.kind === "store" ? "" : ` (${node.kind})`;
  return make("span", { class: node.kind }, node.label, kind + (node.isUnbuildable ? " (unbuildable)" : "") + end);
}

// What a node leads to is shown once. Behind it stands (*) elsewhere.
function treeOf(roots, nodes) {
  const list = make("ul", { class: "tree" }), seen = new Set(), rest = roots.map(at => [at, list, 0]).reverse();
  for (let lines = 0; rest.length; lines += 1) {
    if (lines === MOST_LINES) {
      list.append(make("li", {}, `The tree has more than ${MOST_LINES} lines: \`cabal-plan tree\` shows all.`));
      break;
    }
    const [at, parent, level] = rest.pop(), node = nodes[at];
    const isAgain = seen.has(at) && node.needs.length, isCut = level >= DEEPEST && node.needs.length;
    const item = make("li", {}, nodeText(node, isAgain ? " (*)" : isCut ? " .." : ""));
    parent.append(item);
    if (isAgain || isCut || !node.needs.length) continue;
    seen.add(at);
    const below = make("ul");
    item.append(below);
    for (const it of [...node.sorted].reverse()) rest.push([it, below, level + 1]);
  }
  return list;
}

// Which nodes are drawn, and a line that says what is left out.
function kept(roots, nodes) {
  const all = nodes.length;
  if (all <= FEW_UNITS) return [nodes, `${all} units`];
  const without = nodes.filter(it => it.kind !== "installed");
  if (without.length <= MOST_UNITS) return [without, `${without.length} of ${all} units: installed ones aren't drawn`];
  const near = new Set(roots.slice(0, MOST_UNITS));
  for (const at of near) for (const it of nodes[at].sorted) if (near.size < MOST_UNITS && nodes[it].kind !== "installed") near.add(it);
  return [nodes.filter(it => near.has(it.at)), `the ${near.size} units nearest to the roots, of ${all}: a larger picture isn't drawn`];
}

// The edges that no longer path implies.
function edgesOf(there) {
  const is = new Set(there.map(it => it.at)), below = new Map(), found = [];
  for (const node of there) {
    const needs = node.needs.filter(it => is.has(it)), longer = new Set(needs.flatMap(it => [...below.get(it)]));
    below.set(node.at, new Set([...longer, ...needs]));
    for (const it of needs) if (!longer.has(it)) found.push([it, node.at]);
  }
  return found;
}

// The levels of the picture. An edge over several levels has a bend in each between.
function levelsOf(there, edges) {
  const level = new Map(there.map(it => [it.at, 0])), items = new Map(), levels = [];
  const put = (at, it) => ((levels[at] = levels[at] || []).push(it), it);
  for (const [from, to] of edges) level.set(to, Math.max(level.get(to), level.get(from) + 1));
  for (const node of there) items.set(node.at, put(level.get(node.at), { node, height: HEIGHT, before: [], after: [] }));
  for (const [from, to] of edges) {
    let last = items.get(from);
    for (let at = level.get(from) + 1; at <= level.get(to); at += 1) {
      const next = at === level.get(to) ? items.get(to) : put(at, { height: 2, before: [], after: [] });
      last.after.push(next);
      next.before.push(last);
      last = next;
    }
  }
  return levels;
}

function middle(items) {
  return items.reduce((sum, it) => sum + it.y, 0) / items.length;
}

// Each level is sorted by where its neighbours are, and moved towards them.
function place(levels) {
  const stack = (items, wanted) => {
    let end = -Infinity, off = 0;
    items.forEach((it, at) => {
      it.y = Math.max(wanted[at], end + it.height / 2);
      end = it.y + it.height / 2 + GAP;
      off += it.y - wanted[at];
    });
    for (const it of items) it.y -= off / items.length;
  };
  for (const items of levels) stack(items, items.map((_, at) => at * (HEIGHT + GAP)));
  for (let turn = 0; turn < 8; turn += 1) {
    const side = turn % 2 ? "after" : "before";
    for (const items of turn % 2 ? [...levels].reverse() : levels) {
      const wanted = new Map(items.map(it => [it, it[side].length ? middle(it[side]) : it.y]));
      items.sort((one, other) => wanted.get(one) - wanted.get(other));
      stack(items, items.map(it => wanted.get(it)));
    }
  }
}

function widthOf(it) {
  return it.node ? Math.min(it.node.label.length, LONGEST) * SIGN + 16 : 0;
}

function box(it) {
  const node = it.node, label = node.label.length > LONGEST ? node.label.slice(0, LONGEST - 1) + "…" : node.label;
  const of = { x: it.x, y: it.y - HEIGHT / 2, width: widthOf(it), height: HEIGHT, rx: 4 };
  return drawn("g", { class: `unit ${node.kind}${node.isUnbuildable ? " unbuildable" : ""}` },
    drawn("title", {}, `${node.label} (${node.kind})`), drawn("rect", of), drawn("text", { x: it.x + 8, y: it.y + 4 }, label));
}

function line(from, to, width) {
  const [x1, y1, x2, y2] = [from.x + widthOf(from), from.y, to.x, to.y], mid = from.x + width + WAY / 2;
  return drawn("path", { d: `M${x1} ${y1}L${from.x + width} ${y1}C${mid} ${y1} ${mid} ${y2} ${x2} ${y2}`, class: to.node ? "to" : false });
}

function pictureOf(roots, nodes) {
  const [there, told] = kept(roots, nodes), levels = levelsOf(there, edgesOf(there)), boxes = [], lines = [], widths = new Map();
  place(levels);
  const all = levels.flat(), top = Math.min(...all.map(it => it.y)) - HEIGHT, bottom = Math.max(...all.map(it => it.y)) + HEIGHT;
  let x = 8;
  for (const items of levels) {
    const width = Math.max(...items.map(widthOf));
    for (const it of items) it.x = x;
    widths.set(items, width);
    x += width + WAY;
  }
  for (const items of levels) for (const it of items) {
    if (it.node) boxes.push(box(it));
    for (const next of it.after) lines.push(line(it, next, widths.get(items)));
  }
  const width = x - WAY + 8, height = bottom - top;
  const of = { width, height, viewBox: `0 ${top} ${width} ${height}`, role: "img", "aria-label": `Picture of the plan: ${told}` };
  const picture = drawn("svg", of, ...lines, ...boxes);
  return [make("p", { class: "note" }, `Left to right: the order of the build. ${told[0].toUpperCase()}${told.slice(1)}.`), legend(),
    make("div", { class: "picture", tabindex: 0 }, picture)];
}

function legend() {
  return make("p", { class: "legend" }, ...["local", "store", "installed"].map(it => make("span", { class: it }, it)));
}

function planParts(plan, units) {
  const nodes = nodesOf(plan, units), found = [];
  if (!nodes.length) return [part("Plan", make("p", {}, "It has no units."))];
  found.push(part("Tree", make("div", { class: "scroll", tabindex: 0 }, treeOf(plan.roots, nodes))));
  found.push(part("Picture", ...pictureOf(plan.roots, nodes)));
  for (const [title, lines] of [["Flags and stanzas", plan.flags], ["Passed over", plan.notes]]) {
    if (!lines.length) continue;
    const text = make("pre", { class: "text", tabindex: 0 }, lines.join("\n"));
    found.push(make("details", {}, make("summary", {}, `${title} (${lines.length})`), text));
  }
  return found;
}
"""
