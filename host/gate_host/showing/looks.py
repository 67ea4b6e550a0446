"""How a page looks, and the script that renews it. Both stand in the page itself, which loads nothing else.

Nothing but this style and this script counts in a browser: the policy names them by their hashes. So a text that somebody wrote can't be
taken for either, even if it weren't escaped.
"""
import base64
import hashlib

STYLE = """\
:root { color-scheme: light dark;
  --paper: #fcfbf9; --raised: #f4f1ec; --ink: #1d1c1a; --soft: #67625a; --rule: #e2ddd4; --strong: #c9c2b6;
  --link: #0a5296; --good: #17663a; --bad: #ad2119; --wait: #7d5200; --bad-paper: #fbeeec; --wait-paper: #faf1dd; }
@media (prefers-color-scheme: dark) { :root {
  --paper: #151514; --raised: #1f1e1d; --ink: #e9e6e0; --soft: #a39e95; --rule: #2f2d2b; --strong: #4a4743;
  --link: #8fbdf4; --good: #7fd0a0; --bad: #f4958c; --wait: #e6b766; --bad-paper: #2c1a18; --wait-paper: #2a2214; } }
* { box-sizing: border-box; }
html { -webkit-text-size-adjust: 100%; text-size-adjust: 100%; }
html { overflow-anchor: none; }
body { margin: 0; background: var(--paper); color: var(--ink); overflow-wrap: anywhere;
  font: 400 0.9375rem/1.5 Inter, system-ui, -apple-system, "Segoe UI", Roboto, "Noto Sans", "Liberation Sans", sans-serif;
  font-variant-numeric: tabular-nums lining-nums; }
header, main, footer { max-width: 80rem; margin: 0 auto; padding: 0 clamp(1rem, 4vw, 3rem); }
a { color: var(--link); text-decoration-thickness: 1px; text-underline-offset: 0.18em;
  text-decoration-color: color-mix(in srgb, currentColor 35%, transparent); }
a:hover { text-decoration-color: currentColor; }
a:focus-visible, summary:focus-visible { outline: 2px solid var(--link); outline-offset: 3px; border-radius: 2px; }
code, pre { font: 0.875em/1.55 ui-monospace, "SF Mono", "Cascadia Mono", Menlo, Consolas, "DejaVu Sans Mono", "Liberation Mono",
  monospace; }
time { white-space: nowrap; }
.skip { position: absolute; left: -99rem; }
.skip:focus { left: 1rem; top: 1rem; background: var(--paper); padding: 0.5rem; }
[hidden] { display: none !important; }
.hidden { position: absolute; width: 1px; height: 1px; overflow: hidden; clip-path: inset(50%); white-space: nowrap; }

header { padding-top: clamp(1.5rem, 4vw, 3rem); padding-bottom: clamp(1.25rem, 2.5vw, 2rem); }
.where { margin: 0 0 0.35rem; color: var(--soft); }
h1 { margin: 0; font-size: clamp(1.55rem, 1.1rem + 2vw, 2.3rem); line-height: 1.15; font-weight: 600; letter-spacing: -0.018em;
  text-wrap: balance; }
.made { margin: 0.6rem 0 0; color: var(--soft); }
.made > span + span::before { content: "\\00b7"; padding: 0 0.5em; }

section { border-top: 1px solid var(--rule); padding: 1.4rem 0 1.9rem; }
h2 { margin: 0; font-size: 0.9375rem; line-height: 1.5; font-weight: 600; }
h2 small { display: block; font-size: 0.8125rem; font-weight: 400; color: var(--soft); }
h3 { margin: 0; font-size: 1.0625rem; line-height: 1.4; font-weight: 600; }
h3 span { font-weight: 400; color: var(--soft); }
p { margin: 0; }
.none, .note { color: var(--soft); }
.note { margin-top: 0.9rem; font-size: 0.8125rem; }
@media (min-width: 52rem) {
  section { display: grid; grid-template-columns: 11rem minmax(0, 1fr); column-gap: 2rem; }
  section > h2 { position: sticky; top: 1rem; align-self: start; }
}

.alert { border-top: 0; border-left: 3px solid var(--bad); background: var(--bad-paper); padding: 0.85rem 1.1rem; margin: 0 0 1rem; }
.alert h2 { position: static; color: var(--bad); }
.alert.wait { border-color: var(--wait); background: var(--wait-paper); }
.alert.wait h2 { color: var(--wait); }
.alert p + p { margin-top: 0.35rem; }
.alert:not([hidden]) + section:not(.alert) { margin-top: 1.6rem; }
.alert ul, .plain { margin: 0; padding: 0; list-style: none; }
.alert li + li { margin-top: 0.35rem; }

article + article { margin-top: 1.9rem; }
.facts { display: flex; flex-wrap: wrap; gap: 0 1.4rem; margin: 0.1rem 0 0; color: var(--soft); }
.checks { display: flex; flex-wrap: wrap; gap: 0.35rem 1.5rem; margin: 0.75rem 0 0.85rem; padding: 0; list-style: none; }
.checks b { font-weight: 500; }
.mark { display: inline-block; width: 1.15em; font-weight: 700; }
.success .mark, .success i { color: var(--good); } .failure .mark, .failure i { color: var(--bad); } .open .mark { color: var(--soft); }
.pending .mark, .pending i { color: var(--wait); }
.checks i { font-style: normal; color: var(--soft); }

table { width: 100%; border-collapse: collapse; table-layout: fixed; }
caption { text-align: left; padding: 0; }
th, td { text-align: left; vertical-align: baseline; padding: 0.42rem 1.25rem 0.42rem 0; font-weight: 400; }
th:last-child, td:last-child { padding-right: 0; }
thead th { font-size: 0.8125rem; color: var(--soft); padding-top: 0; border-bottom: 1px solid var(--strong); white-space: nowrap; }
tbody { border-bottom: 1px solid var(--rule); }
tbody:last-child { border-bottom: 0; }
.rows tbody tr + tr > * { border-top: 1px solid var(--rule); }
.number { white-space: nowrap; }
.number a { font-weight: 600; }
thead .number { width: 4.6rem; } thead .who { width: 7.5rem; } thead .by { width: 10rem; } thead .rest { width: 10rem; }
thead .all, .loose thead .by { width: 20rem; } thead .when { width: 5.25rem; } thead .sha { width: 4.75rem; }
@media (min-width: 64rem) { .short { width: calc(100% - 20rem); } }
th.batch { font-weight: 600; padding: 0.7rem 0 0.15rem; }
.about { font-size: 0.8125rem; font-weight: 400; color: var(--soft); margin-left: 0.7rem; }
.soft { color: var(--soft); }
.title { font-weight: 500; }
.label { display: inline-block; font-size: 0.8125rem; line-height: 1.35; padding: 0 0.4em; border: 1px solid var(--strong);
  border-radius: 3px; margin-right: 0.3em; }
@media (max-width: 51.99rem) {
  h2 { margin-bottom: 0.7rem; }
  .alert h2 { margin-bottom: 0.2rem; }
}
@media (max-width: 63.99rem) {
  thead { position: absolute; width: 1px; height: 1px; overflow: hidden; clip-path: inset(50%); }
  table, tbody, tr { display: block; }
  tr { padding: 0.45rem 0; }
  tbody tr > th, tbody tr > td { display: block; padding: 0; border: 0 !important; }
  tbody tr > .number, tbody tr > .number + .what { display: inline; }
  tbody tr > .number { margin-right: 0.7rem; }
  tbody tr > .batch { padding-top: 0.25rem; }
  tbody tr > .side { display: inline; font-size: 0.875rem; }
  .whole { white-space: nowrap; }
  .whole::before { white-space: normal; }
  tbody tr > .side:not(:empty) ~ .side:not(:empty)::before { content: " \\00b7  " attr(data-is) " "; }
  .what::after { content: "\\a"; white-space: pre; }
  td:empty { display: none !important; }
  td[data-is]::before { content: attr(data-is) " "; color: var(--soft); }
}

dl { margin: 0; display: grid; grid-template-columns: 7.5rem minmax(0, 1fr); gap: 0.3rem 1.5rem; }
dt { color: var(--soft); } dd { margin: 0; white-space: pre-wrap; }
pre { margin: 0; white-space: pre-wrap; }
.box { background: var(--raised); padding: 0.8rem 1rem; border-radius: 4px; }
* + .box { margin-top: 1rem; }
.remarks { margin-top: 1rem; color: var(--soft); }
.log { margin: 0; padding: 0; list-style: none; }
.log li { padding: 0.5rem 0; }
.log li + li { border-top: 1px solid var(--rule); }
.log time { display: block; color: var(--soft); font-size: 0.8125rem; }
.log p { white-space: pre-wrap; }
@media (min-width: 40rem) {
  .log li { display: grid; grid-template-columns: 7.5rem minmax(0, 1fr); column-gap: 1.5rem; align-items: baseline; }
}
.log .quote { display: block; border-left: 2px solid var(--strong); padding-left: 0.7rem; margin-top: 0.15rem; }
footer { color: var(--soft); font-size: 0.8125rem; padding-bottom: 3rem; }
footer p { border-top: 1px solid var(--rule); padding-top: 1rem; max-width: none; }
@media print { .skip, #late { display: none; } section { break-inside: avoid; } }
"""

# Times are shown in the zone of the reader, and the page is renewed while it is looked at. Without it the page has its times in UTC, and
# stays as it is. It makes no markup of a text, and what it puts in place of the page is read by the same policy.
SCRIPT = """\
(() => {
"use strict";
const fetched = 10000, reloaded = 30000;
let shown = document.querySelector("main").innerHTML, busy = false;
const two = (number) => String(number).padStart(2, "0");
const months = ["Jan", "Feb", "Mar", "Apr", "May", "Jun", "Jul", "Aug", "Sep", "Oct", "Nov", "Dec"];
function inWords(at, now, exact) {
  const time = `${two(at.getHours())}:${two(at.getMinutes())}${exact ? `:${two(at.getSeconds())}` : ""}`;
  if (at.toDateString() === now.toDateString()) return time;
  const day = `${at.getDate()} ${months[at.getMonth()]}`;
  return at.getFullYear() === now.getFullYear() ? `${day} ${time}` : `${day} ${at.getFullYear()}`;
}
function ago(seconds) {
  if (seconds < 90) return `${Math.max(0, Math.round(seconds))} seconds ago`;
  if (seconds < 5400) return `${Math.round(seconds / 60)} minutes ago`;
  return seconds < 129600 ? `${Math.round(seconds / 3600)} hours ago` : `${Math.round(seconds / 86400)} days ago`;
}
function age() {
  const made = document.getElementById("made"), late = document.getElementById("late");
  if (!made) return;
  const seconds = (Date.now() - Date.parse(made.dateTime)) / 1000;
  document.getElementById("age").textContent = `(${ago(seconds)})`;
  if (late) late.hidden = seconds < Number(late.dataset.late);
}
function tell() {
  const now = new Date();
  for (const it of document.querySelectorAll("time[datetime]")) {
    it.title = it.dateTime;
    it.textContent = inWords(new Date(it.dateTime), now, "exact" in it.dataset);
  }
  const zone = document.getElementById("zone");
  if (zone) zone.textContent = Intl.DateTimeFormat().resolvedOptions().timeZone || "your zone";
  age();
}
function put(page) {
  const script = (it) => it.querySelector("script").textContent + it.querySelector("style").textContent;
  if (script(page) !== script(document)) return location.reload();
  const part = [...document.querySelectorAll("section, article")].reverse().find((it) => it.getBoundingClientRect().top < innerHeight / 2);
  const name = part && part.getAttribute("aria-labelledby"), top = part && part.getBoundingClientRect().top;
  for (const name of ["header", "main", "footer"]) {
    const there = document.querySelector(name), next = page.querySelector(name);
    if (name === "main" && next.innerHTML === shown) continue;
    if (name === "main") shown = next.innerHTML;
    const opened = [...there.querySelectorAll("details[open]")].map((it) => it.id);
    const at = there.contains(document.activeElement) && document.activeElement.getAttribute("href");
    there.replaceWith(document.adoptNode(next));
    for (const id of opened) if (document.getElementById(id)) document.getElementById(id).open = true;
    const link = at && [...next.querySelectorAll("a")].find((it) => it.getAttribute("href") === at);
    if (link) link.focus({preventScroll: true});
  }
  document.title = page.title;
  tell();
  const same = name && document.querySelector(`[aria-labelledby="${CSS.escape(name)}"]`);
  if (same && scrollY > 0) scrollBy(0, same.getBoundingClientRect().top - top);
}
async function renew() {
  if (document.hidden || busy) return;
  busy = true;
  try {
    const answer = await fetch(location.href, {cache: "no-cache"});
    if (answer.ok) put(new DOMParser().parseFromString(await answer.text(), "text/html"));
    else age();
  } catch { age(); }
  busy = false;
}
function reload() {
  if (document.hidden) return;
  try { sessionStorage.setItem(location.href, String(scrollY)); } catch { }
  location.reload();
}
tell();
if (location.protocol === "file:") {
  try {
    const at = sessionStorage.getItem(location.href);
    if (at) scrollTo(0, Number(at));
    sessionStorage.removeItem(location.href);
  } catch { }
  setInterval(reload, reloaded);
} else {
  setInterval(renew, fetched);
  document.addEventListener("visibilitychange", renew);
}
setInterval(() => { if (!document.hidden) age(); }, 5000);
})();
"""

# A filled circle within a circle.
ICON = (
    "data:image/svg+xml,%3Csvg xmlns='http://www.w3.org/2000/svg' viewBox='0 0 16 16'%3E%3Ccircle cx='8' cy='8' r='6.5' fill='none' "
    "stroke='%23888' stroke-width='2'/%3E%3Ccircle cx='8' cy='8' r='3' fill='%23888'/%3E%3C/svg%3E"
)


def source_of(text: str) -> str:
    """By what a policy names a style or a script."""
    return f"'sha256-{base64.b64encode(hashlib.sha256(text.encode()).digest()).decode()}'"


POLICY = "; ".join([
    "default-src 'none'", f"style-src {source_of(STYLE)}", f"script-src {source_of(SCRIPT)}", "connect-src 'self'", "img-src data:",
    "base-uri 'none'", "form-action 'none'",
])
# A header can also say what an element of the page can't.
POLICY_IN_HEADER = f"{POLICY}; frame-ancestors 'none'"
