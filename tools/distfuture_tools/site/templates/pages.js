"use strict";

/* What the pages of a package, of a source and of a search show of the data. */

const SHOWN = 200;    // names of a list that are shown at once
const byId = id => document.getElementById(id);
const classText = (versions, example) => (versions === `= ${example}` ? versions : `${versions}, such as ${example}`);
const counted = (number, one, many = `${one}s`) => `${number.toLocaleString("en")} ${number === 1 ? one : many}`;

/* Lists of the items that have equal keys, in the order of the first ones. */
function grouped(items, key) {
  const groups = new Map();
  for (const item of items) {
    const text = JSON.stringify(key(item));
    if (groups.has(text)) groups.get(text).push(item); else groups.set(text, [item]);
  }
  return [...groups.values()];
}

const linkTo = (kind, number) => element("a", { href: kind.link(number) }, kind.shown(number));

function wordsOfAddress() {
  const text = location.hash.slice(1);
  try { return decodeURIComponent(text); } catch { return text; }
}

/* A section with its title and content, or hidden where there is none. */
function fill(id, count, content) {
  const section = byId(id), title = section.querySelector("h2");
  title.dataset.text ??= title.textContent;
  title.textContent = count === null ? title.dataset.text : `${title.dataset.text}: ${count.toLocaleString("en")}`;
  section.querySelector("div").replaceChildren(...(content ?? []));
  section.hidden = !content;
}

/* A list of links; a long one has a field that filters it, and a button that shows more. */
function nameList(kind, numbers) {
  const list = element("ul", { className: "names" });
  const links = its => its.map(number => element("li", {}, linkTo(kind, number)));
  if (numbers.length <= SHOWN) {
    list.append(...links(numbers));
    return [list];
  }
  let found = numbers, shown = 0;
  const filter = element("input", { type: "text", "aria-label": "Only names that have this in them", placeholder: "Filter", spellcheck: false });
  const told = element("span", { role: "status" });
  const more = element("button", { type: "button" });
  const show = most => {
    list.append(...links(found.slice(shown, most)));
    shown = Math.min(most, found.length);
    told.textContent = `${shown.toLocaleString("en")} of ${found.length.toLocaleString("en")} shown`;
    more.textContent = `Show all ${found.length.toLocaleString("en")}`;
    more.hidden = shown === found.length;
  };
  filter.addEventListener("input", () => {
    const wanted = filter.value.trim().toLowerCase();
    found = numbers.filter(number => nameOf(kind.labels[number]).includes(wanted));
    shown = 0;
    list.replaceChildren();
    show(SHOWN);
  });
  more.addEventListener("click", () => show(found.length));
  show(SHOWN);
  return [element("p", { className: "filter" }, filter, told), list, more];
}

/* A table that scrolls by itself where it is too wide, also by keyboard. */
function table(label, titles, rows) {
  const head = element("tr", {}, ...titles.map(text => element("th", { scope: "col" }, text)));
  const body = rows.map(cells => element("tr", {}, ...cells.map(cell => element("td", {}, cell))));
  const place = { className: "table", tabIndex: 0, role: "region", "aria-label": label };
  return element("div", place, element("table", {}, element("thead", {}, head), element("tbody", {}, ...body)));
}

/* ---- a package */

function treeList(packages, nodes) {
  return element("ul", {}, ...nodes.map(([kind, text, isSure, children]) => {
    const words = typeof text === "number" ? element("a", { href: packages.link(text) }, packages.labels[text]) : text;
    const line = element("span", { className: kind === "missing" || kind === "apart" ? "end" : "" }, isSure ? "" : "perhaps ", words);
    return element("li", {}, line, ...(children.length ? [treeList(packages, children)] : []));
  }));
}

function explanationOf(packages, [title, nodes]) {
  const tree = treeList(packages, nodes);
  tree.className = "tree";
  return [element("p", {}, `${title}:`), tree];
}

function repairText(repair) {
  if (repair.outdated) return "However many other sources move, it can't be installed: it must be uploaded anew itself.";
  if (repair.least === 0) return "No source has to move: a package of a new name is enough.";
  if (repair.least !== undefined) {
    return `${counted(repair.least, "source")} must move to a later version, and no fewer will do. This is enough, with an example of a version:`;
  }
  const least = `At least ${counted(repair["at least"], "source")} must move to a later version`, most = repair["at most"];
  return most === undefined ? `${least}; no number was found that is enough.` : `${least}. These ${most} are enough, with examples of versions:`;
}

function repairOf(sources, repair) {
  const moves = repair.moves.map(([number, top, version]) => element("li", {}, linkTo(sources, number), ` from ${top} to ${version}`));
  return [element("p", {}, repairText(repair)), ...(moves.length ? [element("ul", { className: "list" }, ...moves)] : [])];
}

function statesOf(record) {
  const state = (mood, text) => element("li", { className: mood }, text);
  const states = [];
  if (record.uninstallable) states.push(state("bad", "can't be installed"));
  else if (record.undecided) states.push(state("warn", "undecided whether it can be installed"));
  else states.push(state("good", "can be installed"));
  if (record.outdated) states.push(state("bad", "outdated: no future can install it until it is uploaded anew"));
  if (record.undecided_outdated) states.push(state("warn", "undecided whether it is outdated"));
  if (record.broken_by) states.push(state("warn", "some upload breaks it"));
  return states;
}

function aboutPackage(number, [source, architecture]) {
  const { packages, sources } = site.kinds;
  const label = packages.labels[number], name = nameOf(label);
  const others = packages.numbers.get(name).filter(other => other !== number);
  const versions = others.flatMap(other => [" ", element("a", { href: packages.link(other) }, packages.labels[other].slice(name.length + 1))]);
  const also = others.length ? [", also at", ...versions] : [];
  return [`version ${label.slice(name.length + 1)}, ${architecture}, of the source `, linkTo(sources, source), ...also];
}

/* A row for each source, with the classes of its versions on lines of their own. */
function brokenRows(its) {
  const rows = grouped(its, ([source, , , isSure]) => [source, isSure]);
  return rows.map(group => {
    const [source, , , isSure] = group[0];
    const lines = group.map(([, versions, example]) => element("div", {}, classText(versions, example)));
    return [linkTo(site.kinds.sources, source), element("div", {}, ...lines), isSure ? "yes" : "undecided"];
  });
}

async function showPackage(number) {
  const { packages, sources } = site.kinds;
  const record = await packages.load(number);
  byId("about").replaceChildren(...aboutPackage(number, record.about));
  byId("description").textContent = record.about[2];
  byId("states").replaceChildren(...statesOf(record));
  fill("explanation", null, record.explanation && explanationOf(packages, record.explanation));
  fill("repair", null, record.repair && repairOf(sources, record.repair));
  fill("broken_by", null, record.broken_by && [table("Uploads that would break it", ["Source", "Versions", "Breaks it"], brokenRows(record.broken_by))]);
  for (const key of ["needs", "perhaps", "impact"]) {
    fill(key, record[key]?.length ?? 0, record[key] && nameList(packages, record[key]));
  }
}

/* ---- a source */

function recordsOf(record, word) {
  return Object.entries(record).filter(([key]) => key.startsWith(`${word} `)).map(([, value]) => value);
}

function comingOf([version, broken, moving]) {
  const { packages } = site.kinds, too = new Set(moving);
  const stays = broken.filter(number => !too.has(number));
  const titleOf = (text, numbers) => element("p", {}, `${text}: ${numbers.length.toLocaleString("en")}`);
  const part = (text, numbers) => (numbers.length ? [titleOf(text, numbers), ...nameList(packages, numbers)] : []);
  return [element("h3", {}, `${version} breaks ${counted(broken.length, "package")}`),
          ...part("These stay as they are", stays), ...part("These come anew too", moving)];
}

/* The packages that move together, and what their later versions break; classes that break the same are told together. */
function clusterOf([top, members, classes]) {
  const { packages } = site.kinds;
  const groups = grouped(classes, ([, , breaks, perhaps]) => [breaks, perhaps]).sort(([one], [other]) => other[2].length - one[2].length);
  return [element("h3", {}, `${counted(members.length, "package")} at ${top}`), ...nameList(packages, members), ...groups.flatMap(classesOf)];
}

function classesOf(group) {
  const { packages } = site.kinds, [, , breaks, perhaps] = group[0];
  const effect = breaks.length ? `break ${counted(breaks.length, "package")}` : "break nothing";
  const lines = group.map(([versions, example]) => element("li", {}, classText(versions, example)));
  const undecided = perhaps.length ? [element("p", {}, "Undecided whether they break:"), ...nameList(packages, perhaps)] : [];
  const broken = breaks.length ? nameList(packages, breaks) : [];
  return [element("h3", {}, `These later versions ${effect}`), element("ul", { className: "list" }, ...lines), ...broken, ...undecided];
}

async function showSource(number) {
  const record = await site.kinds.sources.load(number);
  const coming = recordsOf(record, "coming").flatMap(comingOf), clusters = recordsOf(record, "cluster").flatMap(clusterOf);
  fill("coming", null, coming.length ? coming : null);
  fill("clusters", null, clusters.length ? clusters : null);
}

/* ---- a search, and which page this is */

function showSearch(words) {
  byId("title").textContent = `Search for ${words}`;
  document.title = document.title.replace(/^.* - /, `${words} - `);
  const found = Object.values(site.kinds).map(kind => [kind, matches(kind, words, Infinity, byName).map(hit => hit.number)]);
  for (const [kind, numbers] of found) fill(kind.name, numbers.length, numbers.length ? nameList(kind, numbers) : null);
  byId("told").textContent = found.every(([, numbers]) => !numbers.length) ? "No package and no source has this in its name." : "";
}

async function showNamed(kind, words, show) {
  const number = kind.find(words);
  const what = kind.name.slice(0, -1);
  byId("told").textContent = number === undefined ? `This archive has no ${what} ${words}.` : "";
  byId("title").textContent = number === undefined ? words : nameOf(kind.labels[number]);
  document.title = document.title.replace(/^.* - /, `${nameOf(words)} - `);
  if (number === undefined) {
    document.querySelectorAll("main section").forEach(section => { section.hidden = true; });
    document.querySelectorAll("#about, #description, #states").forEach(place => place.replaceChildren());
    return;
  }
  await show(number);
}

async function showPage() {
  const page = document.body.dataset.page, words = wordsOfAddress();
  if (!words || !["package", "source", "search"].includes(page)) return;
  const { packages, sources } = site.kinds;
  try {
    if (page === "package") await showNamed(packages, words, showPackage);
    if (page === "source") await showNamed(sources, words, showSource);
    if (page === "search") showSearch(words);
  } catch (error) {
    byId("told").textContent = error.message;
  }
  window.scrollTo(0, 0);
  byId("title").focus({ preventScroll: true });
  document.body.dataset.ready = words;
}

new Search(byId("search"));
window.addEventListener("hashchange", showPage);
showPage();
