"""The style of the console's page, for light and dark displays and for narrow ones.

It is imported by tools/console_page.py, and not run by itself. The page has no script and loads nothing.
"""

import base64
import hashlib

STYLE = """\
:root { color-scheme: light dark; --ground: #fbfbfa; --panel: #fff; --ink: #1d2126; --soft: #59626d; --line: #dcdfe3;
  --good: #1f6f43; --good-bar: #4c9a6c; --warn: #7a4d00; --warn-bar: #d29a2b; --warn-ground: #fdf3dc;
  --bad: #a3171f; --bad-bar: #cf4a50; --bad-ground: #fdeaea; --rest: #e6e9ec; }
@media (prefers-color-scheme: dark) {
  :root { --ground: #14171a; --panel: #1b1f23; --ink: #e3e6e9; --soft: #a0a9b2; --line: #31373d;
    --good: #7fcf9f; --good-bar: #3f8a5e; --warn: #f0c36a; --warn-bar: #b9831c; --warn-ground: #362a10;
    --bad: #ff9c9c; --bad-bar: #c9484f; --bad-ground: #3c1a1c; --rest: #2d3339; }
}
* { box-sizing: border-box; }
body { margin: 0 auto; padding: 1rem 1.25rem 2rem; max-width: 76rem; background: var(--ground); color: var(--ink);
  font: 15px/1.45 system-ui, "DejaVu Sans", "Liberation Sans", sans-serif; }
h1 { font-size: 1.15rem; margin: 0; } h2 { font-size: .95rem; margin: 1.4rem 0 .4rem; }
h1 small, h2 small { font-weight: normal; color: var(--soft); font-size: .85em; }
a { color: inherit; } code, .mono { font-family: ui-monospace, "DejaVu Sans Mono", monospace; font-size: .92em; }
header { display: flex; flex-wrap: wrap; gap: .3rem 1rem; align-items: baseline; border-bottom: 1px solid var(--line);
  padding-bottom: .6rem; }
header p, footer p { margin: 0; color: var(--soft); } header p:last-child { margin-left: auto; font-size: .9em; }
footer { margin-top: 1.6rem; border-top: 1px solid var(--line); padding-top: .6rem; font-size: .88rem; }
.state { font-weight: 600; white-space: nowrap; } .good { color: var(--good); } .warn { color: var(--warn); }
.bad { color: var(--bad); } .soft { color: var(--soft); }
.pill { padding: .1rem .55rem; border: 1px solid currentColor; border-radius: 1rem; }
.scroll { overflow-x: auto; }
table { border-collapse: collapse; width: 100%; background: var(--panel); border: 1px solid var(--line); }
th, td { text-align: left; padding: .32rem .6rem; border-top: 1px solid var(--line); vertical-align: top; }
thead th { font-size: .8rem; font-weight: 600; color: var(--soft); border-top: 0; white-space: nowrap; }
tbody th { font-weight: 600; white-space: nowrap; } .mono { white-space: nowrap; }
td.num { font-variant-numeric: tabular-nums; white-space: nowrap; }
tr.warn > * { background: var(--warn-ground); color: var(--ink); }
tr.bad > * { background: var(--bad-ground); color: var(--ink); }
tr td .state { display: inline-block; } tr.warn .state { color: var(--warn); } tr.bad .state { color: var(--bad); }
td.cut { color: var(--bad); font-weight: 600; }
svg.bar { display: block; width: 100%; min-width: 8rem; height: .6rem; margin: .3rem 0 .1rem; }
.bar .rest { fill: var(--rest); } .bar .left { fill: var(--good-bar); } .bar.late .left { fill: var(--warn-bar); }
.bar.over .left { fill: var(--bad-bar); } .bar line { stroke: var(--soft); stroke-width: .6; }
.where { overflow-wrap: anywhere; } ul { margin: 0; padding-left: 1.1rem; }
@media (max-width: 46rem) {
  body { padding: .7rem .7rem 2rem; } header p:last-child { margin-left: 0; }
  thead { position: absolute; left: -200rem; }
  table, tbody, tr, td, tbody th { display: block; width: 100%; }
  tr { border-top: 1px solid var(--line); padding: .3rem 0; }
  th, td { border-top: 0; padding: .12rem .6rem; }
  td[data-label]::before { content: attr(data-label) " "; color: var(--soft); font-size: .85em; display: inline-block;
    min-width: 6.5rem; }
  td.num, tbody th { white-space: normal; }
}
"""
# the hash by which a browser accepts this style and no other
HASH = base64.b64encode(hashlib.sha256(STYLE.encode()).digest()).decode()
