"""The script of the pages: the table, its filters, the keys, and the dialog of a cell. Texts are only ever set as texts."""

SCRIPT = r"""
const MOST_REASONS = 20, SLICE = 1000;
const NUMBERS = new Intl.NumberFormat("en");
const KEYS = {
  ArrowUp: [-1, 0], ArrowDown: [1, 0], ArrowLeft: [0, -1], ArrowRight: [0, 1],
  PageUp: [-20, 0], PageDown: [20, 0], Home: [0, -Infinity], End: [0, Infinity],
};
const byId = id => document.getElementById(id);
const page = { table: null, view: [], shown: 0, columns: [], kinds: new Set(), data: new Map(), waiting: new Map() };

// The number of a cell has its verdict, what has changed, and whether a plan is wanted.
const verdictOf = code => VERDICTS[Math.floor(code / 10)];
const changeOf = code => CHANGES[(code % 10) >> 1];
const isWanted = code => code % 2 === 1;
const classOf = word => word.replace(" ", "-");

// What is worst comes first: what broke, then what is wanted and doesn't plan, then what else doesn't plan.
function rankOf(code) {
  const verdict = Math.floor(code / 10);
  if (changeOf(code) === "broken") return 0;
  if (verdict < VERDICTS.length - 1) return (isWanted(code) ? 1 : 6) + verdict;
  return changeOf(code) ? 11 : 12;
}

const FILTERS = [
  ["broken", code => changeOf(code) === "broken"],
  ["wanted, without a plan", code => isWanted(code) && verdictOf(code) !== "plan"],
  ...VERDICTS.map(it => [it, code => verdictOf(code) === it]),
  ...CHANGES.slice(2).map(it => [it, code => changeOf(code) === it]),
];

function themeSet(name) {
  if (name) document.documentElement.dataset.theme = name;
  else delete document.documentElement.dataset.theme;
}

function themeKept(name) {
  try {
    if (name !== undefined) localStorage.setItem("cabal-plan-theme", name);
    return localStorage.getItem("cabal-plan-theme") || "";
  } catch (error) {
    return name || "";
  }
}

function nextTheme() {
  const names = ["", "light", "dark"];
  const name = names[(names.indexOf(document.documentElement.dataset.theme || "") + 1) % names.length];
  themeSet(themeKept(name) === name ? name : "");
  byId("theme").textContent = `Theme: ${name || "system"}`;
}

const hashOf = (row, [compiler, setting]) =>
  "#" + [row.name, row.version, row.target, compiler, setting, ...(row.again ? [row.again] : [])].map(encodeURIComponent).join("/");

function badge(code) {
  const changed = changeOf(code);
  return [verdictOf(code), ...(changed ? [make("b", {}, changed)] : [])];
}

// Which rows and columns are shown, and in which order.
function chosen() {
  const compiler = byId("compiler").value, setting = byId("setting").value;
  const words = byId("search").value.toLowerCase().split(/\s+/).filter(Boolean);
  const tests = FILTERS.filter(([name]) => page.kinds.has(name)).map(it => it[1]);
  page.columns = page.table.columns.map((it, at) => at)
    .filter(at => (!compiler || page.table.columns[at][0] === compiler) && (!setting || page.table.columns[at][1] === setting));
  const codes = row => page.columns.map(at => row.codes[at]).filter(it => it >= 0);
  page.view = page.table.rows.filter(row => words.every(it => row.text.includes(it)))
    .map(row => [row, codes(row)])
    .filter(([, of]) => of.length && (!tests.length || of.some(code => tests.some(test => test(code)))));
  if (byId("order").value === "worst") page.view = sortedByWorst(page.view);
  page.view = page.view.map(it => it[0]);
}

function sortedByWorst(rows) {
  const ranked = rows.map(([row, codes], at) => {
    const ranks = codes.map(rankOf), worst = Math.min(...ranks);
    return { it: [row, codes], at, worst, count: ranks.filter(it => it === worst).length };
  });
  ranked.sort((one, other) => one.worst - other.worst || (one.worst < 11 ? other.count - one.count : 0) || one.at - other.at);
  return ranked.map(it => it.it);
}

function drawHead() {
  const columns = page.columns.map(at => page.table.columns[at]);
  const first = make("tr", {}, make("th", { scope: "col", rowspan: 2, class: "corner" }, page.isPackage ? "Version" : "Package"));
  const second = make("tr");
  for (let at = 0, width; at < columns.length; at += width) {
    width = columns.slice(at).findIndex(it => it[0] !== columns[at][0]);
    if (width < 0) width = columns.length - at;
    first.append(make("th", { scope: "colgroup", colspan: width }, columns[at][0]));
  }
  page.columns.forEach((at, place) => {
    const counts = page.table.counts[at];
    second.append(make("th", { scope: "col" }, columns[place][1] || "plain", make("small", {}, `${counts.plans}/${counts.all} plan`)));
  });
  byId("table").tHead.replaceChildren(first, second);
}

function drawCell(row, at) {
  const code = row.codes[at], column = page.table.columns[at];
  const of = { "data-column": column.filter(Boolean).join(", ") };
  if (code < 0) return make("td", { ...of, class: "none" }, make("span", { title: "not asked" }, "–"));
  const look = `is ${classOf(verdictOf(code))}${isWanted(code) ? "" : " unwanted"}`;
  return make("td", of, make("a", { href: hashOf(row, column), class: look, tabindex: -1 }, ...badge(code)));
}

function drawRow(row) {
  const where = row.target && row.target !== row.name ? make("small", {}, row.target) : "";
  const name = page.isPackage ? row.version || row.name : `${row.name} ${row.version}`.trim();
  const head = page.isPackage ? make("span", {}, name)
    : make("a", { href: `packages/${row.file}.html`, tabindex: -1 }, name);
  return make("tr", {}, make("th", { scope: "row" }, head, where), ...page.columns.map(at => drawCell(row, at)));
}

// Rows are drawn in slices: the next one when the end of the table comes near.
function more() {
  const count = Math.max(20, Math.ceil(SLICE / Math.max(1, page.columns.length)));
  const rows = page.view.slice(page.shown, page.shown + count);
  byId("table").tBodies[0].append(...rows.map(drawRow));
  page.shown += rows.length;
  byId("more").hidden = page.shown >= page.view.length;
}

function draw() {
  chosen();
  drawHead();
  byId("table").tBodies[0].replaceChildren();
  page.shown = 0;
  more();
  const first = byId("table").tBodies[0].querySelector("a");
  if (first) first.tabIndex = 0;
  const all = page.table.rows.length, noun = all === 1 ? "row" : "rows";
  const dashed = page.table.rows.some(row => row.codes.some(it => it >= 0 && !isWanted(it))) ? ". Dashed: a plan isn't wanted" : "";
  byId("found").textContent = page.view.length ? `${NUMBERS.format(page.view.length)} of ${NUMBERS.format(all)} ${noun}${dashed}`
    : "Nothing matches the search and the filters.";
  document.body.dataset.drawn = Math.round(performance.now());
}

function drawKinds() {
  for (const [name, test] of FILTERS) {
    let count = 0;
    for (const row of page.table.rows) count += row.codes.filter(it => it >= 0 && test(it)).length;
    if (!count) continue;
    const of = { type: "button", "aria-pressed": "false", class: `kind ${classOf(name)}` };
    const it = make("button", of, name, make("span", {}, NUMBERS.format(count)));
    it.addEventListener("click", () => {
      if (!page.kinds.delete(name)) page.kinds.add(name);
      it.setAttribute("aria-pressed", page.kinds.has(name));
      draw();
    });
    byId("kinds").append(it);
  }
}

function fillSelect(id, values) {
  const found = [...new Set(values)];
  byId(id).append(...found.map(it => make("option", { value: it }, it || "plain")));
  byId(id).closest("label").hidden = found.length < 2;
}

function summary() {
  let cells = 0, plans = 0;
  for (const it of page.table.counts) { cells += it.all; plans += it.plans; }
  const names = new Set(page.table.rows.map(it => it.name)).size;
  const told = page.isPackage ? [`${NUMBERS.format(page.table.rows.length)} versions`] : [`${NUMBERS.format(names)} packages`];
  byId("summary").textContent = [...told, `${NUMBERS.format(cells)} cells`, `${NUMBERS.format(plans)} plan`,
    `${NUMBERS.format(Math.round(page.table.seconds * 10) / 10)} s of planning`].join(" · ");
}

function begin(table) {
  page.table = table;
  table.counts = table.columns.map((_, at) => {
    const codes = table.rows.map(it => it.codes[at]).filter(it => it >= 0);
    return { all: codes.length, plans: codes.filter(it => verdictOf(it) === "plan").length };
  });
  fillSelect("compiler", table.columns.map(it => it[0]));
  fillSelect("setting", table.columns.map(it => it[1]));
  summary();
  drawKinds();
  draw();
  listen();
  opened();
}

// The keys: one cell of the table is on the way of Tab, and arrows go from it to others.
function moveTo(row, column, step) {
  const rows = byId("table").tBodies[0].rows;
  while (row >= page.shown && page.shown < page.view.length) more();
  const at = Math.min(Math.max(row, 0), rows.length - 1), cells = rows[at] ? rows[at].cells : [];
  let place = Math.min(Math.max(column, 0), cells.length - 1);
  while (cells[place] && !cells[place].querySelector("a")) place += step;
  const link = cells[place] && cells[place].querySelector("a");
  if (!link) return;
  for (const it of byId("table").querySelectorAll("a[tabindex='0']")) it.tabIndex = -1;
  link.tabIndex = 0;
  link.focus();
}

function tableKey(event) {
  const step = KEYS[event.key], cell = event.target.closest("td, tbody th");
  if (!step || !cell || event.altKey || event.metaKey) return;
  event.preventDefault();
  const row = cell.parentNode.sectionRowIndex + (event.ctrlKey && !step[0] ? Math.sign(step[1]) * page.view.length : step[0]);
  moveTo(row, cell.cellIndex + step[1], step[1] > 0 && step[1] < Infinity ? 1 : -1);
}

function pageKey(event) {
  const isTyping = event.target.closest("input, select, dialog");
  if (event.key === "/" && !isTyping && !event.ctrlKey && !event.metaKey) {
    event.preventDefault();
    byId("search").focus();
  } else if (event.key === "ArrowDown" && event.target === byId("search")) {
    event.preventDefault();
    moveTo(0, 1, 1);
  }
}

function listen() {
  for (const id of ["search", "compiler", "setting", "order"]) byId(id).addEventListener("input", draw);
  byId("filters").addEventListener("submit", event => event.preventDefault());
  byId("table").addEventListener("keydown", tableKey);
  byId("table").addEventListener("focusin", event => {
    for (const it of byId("table").querySelectorAll("a[tabindex='0']")) it.tabIndex = -1;
    if (event.target.tagName === "A") event.target.tabIndex = 0;
  });
  document.addEventListener("keydown", pageKey);
  byId("more").addEventListener("click", more);
  byId("theme").addEventListener("click", nextTheme);
  byId("theme").textContent = `Theme: ${document.documentElement.dataset.theme || "system"}`;
  new IntersectionObserver(seen => seen.some(it => it.isIntersecting) && more(), { rootMargin: "1500px" }).observe(byId("more"));
  addEventListener("hashchange", opened);
  byId("cell").addEventListener("close", () => history.replaceState(null, "", location.href.split("#")[0]));
  byId("cell").addEventListener("click", event => event.target === byId("cell") && byId("cell").close());
  byId("skip").addEventListener("click", event => { event.preventDefault(); moveTo(0, 0, 1); });
}

// The data of a package are loaded when one of its cells is opened.
function dataOf(file) {
  if (page.data.has(file)) return Promise.resolve(page.data.get(file));
  return new Promise((resolve, reject) => {
    page.waiting.set(file, resolve);
    const it = make("script", { src: `${document.body.dataset.top}data/${file}.js` });
    it.nonce = page.nonce;
    it.onerror = () => reject(new Error(`data/${file}.js can't be read`));
    document.head.append(it);
  });
}

function parsedHash() {
  try {
    return location.hash.slice(1).split("/").map(decodeURIComponent);
  } catch (error) {
    return [];
  }
}

function opened() {
  const [name, version, target, compiler, setting, again] = parsedHash(), dialog = byId("cell");
  const isAsked = it => it.name === name && it.version === version && it.target === target && it.again === Number(again || 0);
  const row = page.table.rows.find(isAsked);
  const column = page.table.columns.find(it => it[0] === compiler && it[1] === setting);
  if (!row || !column || row.codes[page.table.columns.indexOf(column)] < 0) {
    if (dialog.open) dialog.close();
    return;
  }
  const show = below => {
    dialog.replaceChildren(...cellHead(row, column), ...below);
    if (!dialog.open) dialog.showModal();
    dialog.scrollTop = 0;
  };
  dataOf(row.file).then(data => show(cellBody(data, row, column)), error => show([make("p", {}, error.message)]));
}

function cellHead(row, column) {
  const close = make("button", { type: "button", class: "close" }, "Close");
  close.addEventListener("click", () => byId("cell").close());
  const way = page.isPackage ? "" : make("a", { href: `packages/${row.file}.html` }, "all versions");
  return [
    make("header", {}, make("h2", { id: "cell-title" }, `${row.name} ${row.version}`), close),
    make("p", { class: "where" }, [...column, row.target].filter(Boolean).join(" · "), way && " · ", way),
  ];
}

function part(title, ...below) {
  return make("section", {}, make("h3", {}, title), ...below);
}

function cellOf(data, row, column) {
  const at = data.columns.findIndex(it => it[0] === column[0] && it[1] === column[1]);
  return data.rows.find(it => it[0] === row.version && it[1] === row.target && it[2] === row.again)[3][at];
}

function reasonOf(text) {
  const isHelp = line => line.startsWith("help:");
  const lines = text.split("\n").map(line => make("span", { class: isHelp(line) ? "help" : false }, line + "\n"));
  return make("pre", { class: "text", tabindex: 0 }, ...lines);
}

function cellBody(data, row, column) {
  const cell = cellOf(data, row, column), text = at => (at === undefined ? "" : data.texts[at]);
  const facts = [isWanted(cell.code) ? "wanted" : "not wanted", `status ${cell.status}`, `${cell.seconds} s`];
  const verdict = make("span", { class: `is ${classOf(verdictOf(cell.code))}` }, ...badge(cell.code));
  const found = [make("p", { class: "facts" }, verdict, facts.join(" · "))];
  if (text(cell.reason)) found.push(part("Reason", reasonOf(text(cell.reason))));
  if (cell.plan !== undefined) found.push(...planParts(data.plans[cell.plan], data.units));
  if (text(cell.output)) found.push(part("Output of the program", make("pre", { class: "text", tabindex: 0 }, text(cell.output))));
  if (text(cell.error)) found.push(part("Standard error", make("pre", { class: "text", tabindex: 0 }, text(cell.error))));
  if (text(cell.words)) found.push(part("Run it by hand", make("pre", { class: "text words", tabindex: 0 }, text(cell.words))));
  return [...found, make("p", { class: "key" }, `key ${cell.key}`)];
}

// A page of a package has each reason once, with the cells that it holds for.
function drawReasons(data) {
  const found = new Map();
  for (const [version, target, again, cells] of data.rows) cells.forEach((cell, at) => {
    if (!cell || cell.reason === undefined || !data.texts[cell.reason]) return;
    const it = found.get(cell.reason) || found.set(cell.reason, []).get(cell.reason);
    it.push([{ name: data.name, version, target, again }, data.columns[at]]);
  });
  const sorted = [...found].sort((one, other) => other[1].length - one[1].length);
  const link = ([row, column]) => [make("a", { href: hashOf(row, column) }, [row.version, ...column].filter(Boolean).join(" ")), " "];
  const told = sorted.slice(0, MOST_REASONS).map(([reason, cells]) =>
    make("article", {}, make("p", { class: "cells" }, ...cells.flatMap(link)), reasonOf(data.texts[reason])));
  const left = sorted.length - told.length;
  const rest = left > 0 ? make("p", {}, `${left} more reasons are in the cells.`) : "";
  byId("reasons").replaceChildren(make("h2", {}, "Reasons"), ...told, rest);
  byId("reasons").hidden = !told.length;
}

globalThis.planSet = {
  table({ columns, packages, rows, seconds }) {
    const row = ([at, version, target, again, codes]) => {
      const [name, file] = packages[at];
      return { name, file, version, target, again, codes, text: `${name} ${version} ${name}-${version} ${target}`.toLowerCase() };
    };
    begin({ columns, rows: rows.map(row), seconds });
  },
  cells(file, data) {
    page.data.set(file, data);
    if (page.waiting.has(file)) page.waiting.get(file)(data);
    if (document.body.dataset.package !== file) return;
    let seconds = 0;
    page.isPackage = true;
    const rows = data.rows.map(([version, target, again, cells]) => {
      for (const it of cells) seconds += it ? it.seconds : 0;
      const codes = cells.map(it => (it ? it.code : -1));
      return { name: data.name, file, version, target, again, codes, text: `${data.name} ${version} ${target}`.toLowerCase() };
    });
    drawReasons(data);
    begin({ columns: data.columns, rows, seconds });
  },
};
page.nonce = document.currentScript.nonce;
themeSet(themeKept());
"""
