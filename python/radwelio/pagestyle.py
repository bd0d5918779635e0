"""The style and the script of a page."""

STYLE = """
:root { color-scheme: light dark; --ink: #0f172a; --soft: #475569; --paper: #ffffff; --ground: #f1f5f9; --edge: #cbd5e1;
  --line: #64748b; --inner: #1d4ed8; --mark: #fde68a; --chosen: #b45309; --comment: #557a55; --word: #9d174d;
  --variable: #6d28d9; }
@media (prefers-color-scheme: dark) { :root { --ink: #e2e8f0; --soft: #a3b1c6; --paper: #172033; --ground: #0b1120;
  --edge: #3b4a63; --line: #94a3b8; --inner: #93c5fd; --mark: #5b4308; --chosen: #fbbf24; --comment: #94c494;
  --word: #f9a8d4; --variable: #c4b5fd; } }
* { box-sizing: border-box; }
body { margin: 0; background: var(--ground); color: var(--ink);
  font: 16px/1.5 Helvetica, Arial, "Liberation Sans", "DejaVu Sans", sans-serif; }
header { padding: 1.2rem 1.6rem .4rem; }
h1 { margin: 0; font-size: 1.5rem; overflow-wrap: anywhere; }
h2 { margin: 0 0 .3rem; font-size: 1.15rem; }
h3 { margin: 0 0 .5rem; font-size: 1rem; font-weight: normal; color: var(--soft); }
p { margin: .2rem 0 .6rem; }
a { color: var(--inner); }
code, pre { font-family: "DejaVu Sans Mono", Menlo, Consolas, monospace; font-size: .86em; }
.note { color: var(--soft); font-size: .9rem; }
.skip { position: absolute; left: -999rem; }
.skip:focus { left: 1rem; top: .5rem; background: var(--paper); padding: .3rem .6rem; }
nav ol { display: flex; flex-wrap: wrap; gap: .3rem 1.6rem; margin: 0; padding: 0 0 0 1.2rem; }
main { display: grid; grid-template-columns: minmax(18rem, 30rem) minmax(0, 1fr); gap: 1rem; padding: .8rem 1.6rem 3rem;
  align-items: start; }
section { background: var(--paper); border: 1px solid var(--edge); border-radius: 10px; padding: 1rem 1.1rem; }
#deck { position: sticky; top: .8rem; max-height: calc(100vh - 1.6rem); display: flex; flex-direction: column; }
#results { display: grid; grid-template-columns: minmax(0, 1fr); gap: 1rem; }
.listing { overflow: auto; border-top: 1px solid var(--edge); padding-top: .4rem; }
.line { display: flex; gap: .6rem; border-radius: 4px; padding: 0 .3rem; }
.line code { white-space: pre-wrap; overflow-wrap: anywhere; tab-size: 8; flex: 1; line-height: 1.65; }
.number { color: var(--soft); min-width: 2.2em; text-align: right; font-size: .8rem; line-height: 1.75;
  user-select: none; }
.rules { min-width: 1.6em; text-align: right; }
.rule { color: var(--inner); font-size: .8rem; font-weight: bold; margin-left: .2em; }
.marked { background: var(--mark); }
.comment { color: var(--comment); font-style: italic; }
.word, .mark { color: var(--word); }
.variable { color: var(--variable); }
figure { margin: .6rem 0; }
figcaption { color: var(--soft); font-size: .9rem; }
.picture { overflow: auto; padding: .2rem 0; }
.radwelio { display: block; height: auto; }
.radwelio .ground { fill: transparent; }
.radwelio text { fill: var(--ink); }
.radwelio text[font-weight] { fill: var(--inner); }
.radwelio .way, .radwelio .branch { stroke: var(--line); }
.radwelio .heads { fill: var(--line); }
.radwelio .box { fill: var(--paper); stroke: var(--edge); }
.radwelio .node circle { fill: var(--paper); }
.radwelio a { cursor: pointer; text-decoration: none; }
.radwelio a .box { stroke: var(--inner); }
.radwelio a:hover .box, .radwelio a:focus .box { stroke: var(--chosen); stroke-width: 2.5; }
.radwelio a:focus { outline: none; }
.radwelio .chosen .box { stroke: var(--chosen); stroke-width: 3; }
.radwelio .way.chosen, .radwelio .way.source { stroke: var(--chosen); stroke-width: 2.6; }
.radwelio .source .box { stroke: var(--chosen); stroke-width: 2; stroke-dasharray: 4 3; }
.derivations { display: grid; grid-template-columns: minmax(0, 1fr); gap: .6rem; }
.derivation { background: var(--ground); overflow: auto; }
.derivation:focus { outline: 2px solid var(--chosen); }
.scripted .derivation { display: none; }
.scripted .derivation.shown { display: block; }
.tree, .tree ul { list-style: none; margin: 0; padding: 0; }
.tree ul { margin-left: .7rem; }
.tree li { position: relative; padding: .12rem 0 .12rem 1.3rem; white-space: nowrap; }
.tree > li { padding-left: 0; }
.tree li li::before { content: ""; position: absolute; left: 0; top: 0; bottom: 0;
  border-left: 1.5px solid var(--edge); }
.tree li li:last-child::before { bottom: auto; height: .95rem; }
.tree li li::after { content: ""; position: absolute; left: 0; top: .95rem; width: 1rem;
  border-top: 1.5px solid var(--edge); }
.step { background: var(--paper); border: 1px solid var(--edge); border-radius: 6px; padding: .1rem .5rem;
  display: inline-block; }
.derivation .node { color: var(--soft); font-size: .75rem; border: 1px solid var(--edge); border-radius: 50%;
  padding: 0 .35em; }
.by { color: var(--soft); font-size: .85rem; margin-left: .3em; }
a.by { color: var(--inner); }
details { margin-top: .5rem; }
summary { cursor: pointer; color: var(--soft); }
pre { overflow: auto; margin: .4rem 0 0; }
@media (max-width: 60rem) { main { grid-template-columns: minmax(0, 1fr); }
  #deck { position: static; max-height: none; } }
@media print { #deck { position: static; max-height: none; } .scripted .derivation { display: block; }
  main { display: block; } section { border: 0; } }
"""

SCRIPT = """
"use strict";
(function () {
  var root = document.documentElement;
  root.classList.add("scripted");
  function all(what, within) { return Array.prototype.slice.call((within || document).querySelectorAll(what)); }
  function clear() {
    all(".marked, .chosen, .source, .shown").forEach(function (one) {
      one.classList.remove("marked", "chosen", "source", "shown");
    });
  }
  function figure(grammar, which) { return all("#grammar-" + grammar + " figure")[which]; }
  function mark(within, arc, how) {
    if (within) {
      all('[data-arc="' + arc + '"]', within).forEach(function (one) { one.classList.add(how); });
    }
  }
  function reveal(within) {
    var box = within && within.querySelector("g.chosen .box, g.source .box");
    var picture = within && within.querySelector(".picture");
    if (box && picture.scrollWidth > picture.clientWidth) {
      var place = box.getBoundingClientRect();
      var room = picture.getBoundingClientRect();
      if (place.left < room.left || place.right > room.right) {
        picture.scrollLeft += place.left - room.left - (room.width - place.width) / 2;
      }
    }
  }
  function show(section, focus) {
    clear();
    section.classList.add("shown");
    mark(figure(section.dataset.grammar, 1), section.dataset.arc, "chosen");
    all(".step", section).forEach(function (step) {
      if (!step.querySelector("[data-rule]")) {
        mark(figure(section.dataset.grammar, 0), step.dataset.number, "source");
      }
    });
    reveal(figure(section.dataset.grammar, 0));
    reveal(figure(section.dataset.grammar, 1));
    var rules = {};
    all("[data-rule]", section).forEach(function (one) { rules[one.dataset.rule] = true; });
    var first = null;
    all(".line[data-rules]").forEach(function (line) {
      if (line.dataset.rules.split(" ").some(function (rule) { return rules[rule]; })) {
        line.classList.add("marked");
        first = first || line;
      }
    });
    var listing = document.querySelector(".listing");
    if (first && listing.scrollHeight > listing.clientHeight) {
      listing.scrollTop += first.getBoundingClientRect().top - listing.getBoundingClientRect().top - 60;
    }
    if (focus) {
      section.scrollIntoView({ block: "nearest" });
      section.focus({ preventScroll: true });
    }
  }
  function follow() {
    var target = document.getElementById(decodeURIComponent(location.hash.slice(1)));
    if (target && target.classList.contains("derivation")) {
      show(target, true);
    }
  }
  document.addEventListener("click", function (event) {
    var link = event.target.closest && event.target.closest('a[href^="#derivation-"], svg a');
    var to = link && (link.getAttribute("href") || "");
    if (to && to === location.hash) {
      follow();
    }
  });
  document.addEventListener("keydown", function (event) {
    if (event.key === "Escape") {
      clear();
    }
  });
  window.addEventListener("hashchange", follow);
  follow();
})();
"""
