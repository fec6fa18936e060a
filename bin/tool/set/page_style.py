"""The style of the pages."""

STYLE = """:root {
  color-scheme: light dark;
  --page: light-dark(#fbfbfa, #15181b); --card: light-dark(#ffffff, #1b1f23); --text: light-dark(#1d2125, #e4e7ea);
  --quiet: light-dark(#565e66, #a6aeb6); --line: light-dark(#dadde1, #31373d); --link: light-dark(#0b57a4, #8fc1ff);
  --plan: light-dark(#e4f3e8, #16301f); --on-plan: light-dark(#14532d, #a9e3bb);
  --no: light-dark(#fde4e2, #481e1d); --on-no: light-dark(#8b1a1a, #ffc4bf);
  --gave: light-dark(#fdf0cf, #3c2f0f); --on-gave: light-dark(#664300, #f2d48c);
  --refused: light-dark(#eae6f8, #2c2651); --on-refused: light-dark(#43308a, #d0c6ff);
  --failed: light-dark(#8b1a1a, #ffb4ab); --on-failed: light-dark(#ffffff, #3b0a08);
  --store: light-dark(#e3eefb, #182c44); --on-store: light-dark(#123f70, #b5d6ff); --installed: light-dark(#eceef0, #2a2f34);
  --mono: ui-monospace, "SFMono-Regular", "DejaVu Sans Mono", Menlo, Consolas, monospace;
}
:root[data-theme=light] { color-scheme: light; }
:root[data-theme=dark] { color-scheme: dark; }
* { box-sizing: border-box; }
[hidden] { display: none !important; }
body { margin: 0; padding: 0 1.25rem 2rem; min-width: 100%; width: max-content; background: var(--page); color: var(--text);
  font: 14px/1.45 system-ui, "Segoe UI", Roboto, "DejaVu Sans", sans-serif; }
.still { position: sticky; left: 1.25rem; max-width: calc(100vw - 3.5rem); }
a { color: var(--link); text-underline-offset: 2px; }
:focus-visible { outline: 2px solid var(--link); outline-offset: 1px; }
.skip { position: absolute; left: -99rem; }
.skip:focus { left: 1rem; top: .25rem; z-index: 9; background: var(--card); padding: .25rem .5rem; }
body > header { display: flex; justify-content: space-between; align-items: start; gap: 1rem; padding-top: 1rem; }
h1 { font-size: 1.35rem; line-height: 1.25; margin: 0; overflow-wrap: anywhere; }
h2 { font-size: 1.15rem; margin: 0; overflow-wrap: anywhere; }
h3 { font-size: .8rem; margin: 1rem 0 .3rem; color: var(--quiet); font-weight: 600; }
#summary, .where, .note, .key, #found, .way { color: var(--quiet); margin: .2rem 0; }
#found { margin: .6rem 0 .4rem; }
button, input, select { font: inherit; color: inherit; background: var(--card); border: 1px solid var(--line); border-radius: 5px;
  padding: .25rem .55rem; }
button { cursor: pointer; white-space: nowrap; }
button:hover, .is:hover { border-color: var(--quiet); }
form { display: flex; flex-wrap: wrap; gap: .6rem .9rem; align-items: end; margin-top: .9rem; }
label { display: grid; gap: .15rem; color: var(--quiet); font-size: .8rem; }
label > * { color: var(--text); font-size: 14px; }
label kbd { position: absolute; margin-left: 3.2rem; font: 11px var(--mono); border: 1px solid var(--line); border-radius: 3px;
  padding: 0 .3rem; color: var(--quiet); }
.grow { flex: 1 1 15rem; max-width: 26rem; }
#kinds { flex: 1 0 100%; display: flex; flex-wrap: wrap; gap: .35rem; }
.kind { padding: .1rem .5rem; font-size: 13px; }
.kind span { font-weight: 600; margin-left: .4rem; font-variant-numeric: tabular-nums; }
.kind[aria-pressed=true] { background: var(--text); color: var(--page); border-color: var(--text); }
table { border-collapse: separate; border-spacing: 0; font-size: 13px; }
caption { position: absolute; width: 1px; height: 1px; overflow: hidden; clip-path: inset(50%); white-space: nowrap; }
th, td { padding: 1px 3px; border-bottom: 1px solid var(--line); text-align: left; font-weight: 400; white-space: nowrap; }
thead th { background: var(--page); font-weight: 600; padding: .2rem .6rem; vertical-align: bottom; }
thead small { display: block; font-weight: 400; color: var(--quiet); }
thead { position: sticky; top: 0; z-index: 3; }
tbody th, .corner { position: sticky; left: 0; background: var(--page); padding: 2px 1rem 2px 1.25rem; margin-left: -1.25rem; z-index: 2; }
table { margin-left: -1.25rem; }
tbody th a { color: var(--text); text-decoration: none; }
tbody th a:hover { text-decoration: underline; }
tbody th small { color: var(--quiet); margin-left: .5rem; }
tbody tr:hover > * { background: var(--card); }
.is { display: inline-block; min-width: 5rem; padding: 1px .5rem; border-radius: 4px; border: 1px solid transparent;
  text-decoration: none; }
td .is { display: block; }
.is b { font-weight: 600; margin-left: .4rem; padding-left: .4rem; border-left: 1px solid; }
.is.plan { background: var(--plan); color: var(--on-plan); }
.is.no-plan { background: var(--no); color: var(--on-no); }
.is.gave-up { background: var(--gave); color: var(--on-gave); }
.is.refused { background: var(--refused); color: var(--on-refused); }
.is.failed { background: var(--failed); color: var(--on-failed); }
.is.unwanted { background: none; border: 1px dashed var(--line); }
.is.failed.unwanted { color: var(--on-no); }
.none { color: var(--quiet); text-align: center; }
dialog { width: min(72rem, 100vw - 2rem); max-height: calc(100vh - 2rem); padding: 1.1rem 1.25rem; border: 1px solid var(--line);
  border-radius: 8px; background: var(--card); color: var(--text); overflow: auto; }
dialog::backdrop { background: #0008; }
dialog header { display: flex; justify-content: space-between; gap: 1rem; align-items: start; }
.facts .is { margin-right: .7rem; }
.key { font: 11px var(--mono); overflow-wrap: anywhere; margin-top: 1rem; }
pre.text { font: 12.5px/1.5 var(--mono); white-space: pre-wrap; overflow-wrap: anywhere; margin: 0; padding: .6rem .75rem;
  background: var(--page); border: 1px solid var(--line); border-radius: 5px; max-height: 28rem; overflow: auto; }
pre.words { user-select: all; }
.help { color: var(--on-plan); font-weight: 600; }
details { margin-top: .9rem; }
summary { cursor: pointer; color: var(--quiet); font-size: .8rem; font-weight: 600; }
.scroll, .picture { max-height: 26rem; overflow: auto; border: 1px solid var(--line); border-radius: 5px; background: var(--page);
  padding: .5rem .75rem; }
.tree, .tree ul { list-style: none; margin: 0; padding: 0; font: 12.5px/1.55 var(--mono); white-space: nowrap; }
.tree ul { margin-left: .45rem; }
.tree ul > li { position: relative; padding-left: 1.2rem; border-left: 1px solid var(--line); }
.tree ul > li:last-child { border-left-color: transparent; }
.tree ul > li::before { content: ""; position: absolute; left: -1px; top: 0; width: .9rem; height: .75em; border: solid var(--line);
  border-width: 0 0 1px 1px; }
.tree .installed { color: var(--quiet); }
.tree .local { color: var(--on-plan); font-weight: 600; }
.tree .unbuildable { color: var(--on-no); }
.legend span { display: inline-block; font-size: 12px; padding: 0 .5rem; margin-right: .4rem; border-radius: 4px;
  border: 1px solid var(--quiet); }
.legend { margin: .3rem 0; }
.legend .local { background: var(--plan); color: var(--on-plan); border-width: 2px; }
.legend .store { background: var(--store); color: var(--on-store); }
.legend .installed { background: var(--installed); border-style: dashed; }
svg { display: block; }
svg text { font: 12px var(--mono); fill: var(--text); }
svg rect { stroke: var(--quiet); }
svg path { fill: none; stroke: var(--quiet); stroke-width: 1; opacity: .75; }
.unit.local rect { fill: var(--plan); stroke: var(--on-plan); stroke-width: 1.8; }
.unit.store rect { fill: var(--store); stroke: var(--on-store); }
.unit.installed rect { fill: var(--installed); stroke-dasharray: 3 2; }
.unit.unbuildable rect { fill: var(--no); stroke: var(--on-no); }
#reasons { margin-top: 1.5rem; }
#reasons article { margin-top: .8rem; }
.cells { margin: 0 0 .3rem; }
.cells a { margin-right: .5rem; }
@media (max-width: 36rem) {
  body { width: auto; padding: 0 .75rem 1.5rem; }
  .still { position: static; max-width: none; }
  thead { position: absolute; width: 1px; height: 1px; overflow: hidden; clip-path: inset(50%); }
  table, tbody, tbody th, td { display: block; }
  table { margin-left: 0; }
  tbody tr { display: grid; grid-template-columns: repeat(auto-fill, minmax(8.5rem, 1fr)); gap: .3rem .5rem; padding: .5rem 0;
    border-bottom: 1px solid var(--line); }
  tbody th { grid-column: 1 / -1; position: static; margin: 0; padding: 0; white-space: normal; overflow-wrap: anywhere; font-weight: 600; }
  tbody th, td { border: 0; }
  td { padding: 0; white-space: normal; }
  td::before { content: attr(data-column); display: block; font-size: 11px; color: var(--quiet); }
  .none { display: none; }
  dialog { width: 100vw; max-width: 100vw; max-height: 100vh; border-radius: 0; padding: .75rem; margin: 0; min-height: 100vh; }
}
@media print { dialog, form, #theme { display: none; } }
"""
