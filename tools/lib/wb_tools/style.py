"""The style of the page that tools/bin/wb-status makes: light and dark, for a phone, a desk and paper; and the one
script that the page runs."""
import base64
import hashlib

# Says how old the page is, and in red once it is older than it should be; a browser can know that only by its clock.
AGE = """
const made = document.getElementById("made"), age = document.getElementById("age");
function tell() {
  const minutes = Math.floor((Date.now() - Date.parse(made.dateTime)) / 60000), due = Number(made.dataset.due);
  const amount = minutes < 120 ? `${minutes}\u00a0min` : minutes < 2880 ? `${Math.floor(minutes / 60)}\u00a0h`
    : `${Math.floor(minutes / 1440)}\u00a0d`;
  const late = minutes > due;
  age.className = late ? "late" : "";
  age.textContent = late ? `It is ${amount} old, and should be no older than ${due}\u00a0min.` : `It is ${amount} old.`;
}
tell();
setInterval(tell, 30000);
"""
AGE_HASH = f"sha256-{base64.b64encode(hashlib.sha256(AGE.encode()).digest()).decode()}"

STYLE = """
:root { --back: #fcfcfd; --text: #1b1f24; --quiet: #59636e; --line: #d1d9e0; --head: #f1f3f6; --link: #0a57c2;
  --late: #b3261e; --needs-build: #75899c; --building: #1f6fd0; --built: #2f9080; --uploaded: #5a9c3f;
  --installed: #2c7f3f; --dep-wait: #a88000; --bd-uninstallable: #c06a18; --build-attempted: #e0556f;
  --failed: #a01832; --not-for-us: #6b6478; --other: #444; }
@media (prefers-color-scheme: dark) { :root { --back: #12161b; --text: #e6eaef; --quiet: #9aa6b2; --line: #333c46;
  --head: #1c232b; --link: #7fb2ff; --late: #ff8a80; --needs-build: #7b8fa1; --building: #4a93ee; --built: #4fa595;
  --uploaded: #7cb860; --installed: #3aa455; --dep-wait: #d3a520; --bd-uninstallable: #cf7f30;
  --build-attempted: #e5738a; --failed: #d0455f; --not-for-us: #857d94; --other: #bbb; } }
* { box-sizing: border-box; }
body { margin: 0 auto; max-width: 76rem; padding: 0 1rem 4rem; background: var(--back); color: var(--text);
  font: 1rem/1.5 system-ui, sans-serif; }
h1, h2, p, caption, li { overflow-wrap: break-word; }
h1 { font-size: 1.6rem; margin: 1.2rem 0 0; }
h2 { font-size: 1.3rem; margin: 0 0 .3rem; }
header p, footer p, section > p { margin: .2rem 0 .6rem; color: var(--quiet); }
time, .since, .day, .builder:not(.long), .build { white-space: nowrap; }
.late { color: var(--late); font-weight: 600; }
section { margin-top: 2rem; border-top: 1px solid var(--line); padding-top: 1rem; }
a { color: var(--link); }
.up { position: fixed; right: .8rem; bottom: .8rem; padding: .2rem .8rem; border: 1px solid var(--line);
  border-radius: 1rem; background: var(--head); }
.bar { display: flex; gap: 2px; height: 1.4rem; border-radius: .3rem; overflow: hidden; margin-bottom: .6rem; }
.bar span { flex: 1 0 0; min-width: 4px; }
.overview .bar { height: .9rem; margin: .3rem 0 0; min-width: 8rem; }
table { border-collapse: collapse; width: 100%; margin: 1rem 0; }
caption { text-align: left; font-weight: 600; padding-bottom: .3rem; }
th, td { text-align: left; vertical-align: top; padding: .3rem .5rem; border-top: 1px solid var(--line); }
.long, .counts tbody th { overflow-wrap: anywhere; }
thead th { background: var(--head); font-weight: 600; font-size: .85rem; color: var(--quiet); }
tbody th, tfoot th { font-weight: 400; }
tfoot th, tfoot td { font-weight: 600; }
.number { text-align: right; font-variant-numeric: tabular-nums; white-space: nowrap; width: 1%; }
.take { text-align: right; font-variant-numeric: tabular-nums; min-width: 3.2rem; }
.small { color: var(--quiet); font-size: .85rem; }
.none { color: var(--quiet); }
.overview .states { width: 50%; }
i { display: inline-block; width: .8rem; height: .8rem; margin-right: .5rem; border-radius: .2rem; }
.legend { list-style: none; display: flex; flex-wrap: wrap; gap: .2rem 1.2rem; margin: 0; padding: 0; font-size: .85rem;
  color: var(--quiet); }
.needs-build:is(i, span) { background: var(--needs-build); } .building:is(i, span) { background: var(--building); }
.built:is(i, span) { background: var(--built); } .uploaded:is(i, span) { background: var(--uploaded); }
.installed:is(i, span) { background: var(--installed); } .dep-wait:is(i, span) { background: var(--dep-wait); }
.bd-uninstallable:is(i, span) { background: var(--bd-uninstallable); }
.build-attempted:is(i, span) { background: var(--build-attempted); }
.failed:is(i, span) { background: var(--failed); } .not-for-us:is(i, span) { background: var(--not-for-us); }
.other:is(i, span) { background: var(--other); }
.rows th, .rows td { width: auto; } .rows .number { width: 1%; }
@media (max-width: 39.99rem) {
  /* a row is a card: its first cell is a line of its own, and the others follow, each after its head */
  .rows thead, .overview thead { position: absolute; width: 1px; height: 1px; overflow: hidden; clip-path: inset(50%); }
  .rows, .rows caption, .rows tbody, .rows tr, .overview, .overview caption, .overview tbody, .overview tr {
    display: block; }
  .rows tr, .overview tr { border-top: 1px solid var(--line); padding: .4rem 0; }
  .rows td, .overview td, .overview th { display: inline; border: 0; padding: 0 .6rem 0 0; text-align: left; }
  .rows .package, .rows .text, .overview th, .overview .states { display: block; padding: 0; width: auto; }
  .rows .number + .package { display: inline; }
  .rows .take, .rows .since, .overview .number { display: inline-block; min-width: 0; width: auto;
    white-space: nowrap; }
  .rows .number { display: inline-block; width: auto; }
  .package .small { display: inline-block; max-width: 100%; }
  .take::before { content: "take "; } .since::before { content: "since "; } .builder::before { content: "on "; }
  td.to-build::before { content: "to build "; } td.building::before { content: "building "; }
  td.waiting::before { content: "waiting "; } td.failed::before { content: "failed "; }
  td.installed::before { content: "installed "; }
  .take::before, .since::before, .builder::before, .overview td::before { color: var(--quiet); font-size: .85rem; }
}
@media (min-width: 40rem) { .package { min-width: 13rem; } .rows .text { width: 60%; min-width: 16rem; } }
@media (min-width: 56rem) { .columns { display: grid; grid-template-columns: 17rem minmax(0, 1fr); gap: 0 2rem; } }
@media print { .bar span, i { print-color-adjust: exact; -webkit-print-color-adjust: exact; } .up { display: none; } }
"""
