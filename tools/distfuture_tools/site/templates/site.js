"use strict";

/* The data of the site. A page that is opened from disk may load scripts and nothing else: so names and shards are scripts, which call
   `names` and `put`. Packages and sources are numbered by their order in the names. */

class Kind {
  constructor(name, share, labels) {
    this.name = name;
    this.share = share;               // how many numbers a shard has
    this.labels = labels;             // NAME=VERSION of a package, NAME of a source
    this.records = new Map();
    this.shards = new Map();
    this.numbers = new Map();         // of each name its numbers, the newest version last
    labels.forEach((label, number) => {
      const known = this.numbers.get(nameOf(label));
      if (known) known.push(number); else this.numbers.set(nameOf(label), [number]);
    });
  }

  /* The number of a name, or of NAME=VERSION; the newest version where none is said. */
  find(words) {
    const numbers = this.numbers.get(nameOf(words)) ?? [];
    return words.includes("=") ? numbers.find(number => this.labels[number] === words) : numbers.at(-1);
  }

  /* A label, or the name alone where it has one version. */
  shown(number) {
    const label = this.labels[number], name = nameOf(label);
    return this.numbers.get(name).length === 1 ? name : label;
  }

  link(number) {
    const label = encodeURIComponent(this.shown(number)).replace(/%3D/g, "=").replace(/%2B/g, "+").replace(/%3A/g, ":");
    return `${this.name.slice(0, -1)}.html#${label}`;
  }

  /* The record of a number, once its shard is there. */
  async load(number) {
    const path = `data/${this.name}/${Math.floor(number / this.share)}.js`;
    if (!this.shards.has(path)) this.shards.set(path, loadScript(path));
    await this.shards.get(path);
    return this.records.get(number) ?? {};
  }
}

const site = {
  kinds: {},
  names(name, share, text) { this.kinds[name] = new Kind(name, share, text.split("\n")); },
  put(name, number, key, value) {
    const { records } = this.kinds[name];
    if (!records.has(number)) records.set(number, {});
    records.get(number)[key] = value;
  },
};

function nameOf(label) {
  const end = label.indexOf("=");
  return end < 0 ? label : label.slice(0, end);
}

function loadScript(path) {
  return new Promise((done, fail) => {
    const script = document.createElement("script");
    script.src = path;
    script.onload = done;
    script.onerror = () => fail(new Error(`${path} is missing in the folder of this site`));
    document.head.append(script);
  });
}

/* An element with its properties and children; text is never read as markup. */
function element(tag, properties, ...children) {
  const made = document.createElement(tag);
  for (const [key, value] of Object.entries(properties ?? {})) {
    if (key in made) made[key] = value; else made.setAttribute(key, value);
  }
  made.append(...children);
  return made;
}

/* ---- search */

const byName = (one, other) => (one.name < other.name ? -1 : 1);
const byLength = (one, other) => one.name.length - other.name.length || byName(one, other);

/* The names of a kind that have the words in them: the same, those that begin so, the others; each of these in an order. */
function matches(kind, words, most, order) {
  const wanted = words.trim().toLowerCase();
  if (!wanted) return [];
  const rank = name => (name === wanted ? 0 : name.startsWith(wanted) ? 1 : 2);
  return [...kind.numbers]
    .filter(([name]) => name.includes(wanted))
    .map(([name, numbers]) => ({ kind, name, number: numbers.at(-1), rank: rank(name) }))
    .sort((one, other) => one.rank - other.rank || order(one, other))
    .slice(0, most);
}

function suggestions(words) {
  const { packages, sources } = site.kinds;
  return [...matches(packages, words, 9, byLength), ...matches(sources, words, 3, byLength)].sort((one, other) => one.rank - other.rank);
}

/* A field with a list of what is found, worked by arrows, Enter and Escape as the pattern of a combobox asks. */
class Search {
  constructor(form) {
    this.form = form;
    this.input = form.querySelector("input");
    this.list = form.querySelector("[role=listbox]");
    this.hits = [];
    this.chosen = -1;
    this.input.addEventListener("input", () => this.suggest());
    this.input.addEventListener("keydown", event => this.press(event));
    this.input.addEventListener("blur", () => this.close());
    this.form.addEventListener("submit", event => { event.preventDefault(); this.open(); });
    document.addEventListener("keydown", event => this.jump(event));
  }

  suggest() {
    this.hits = suggestions(this.input.value);
    this.list.replaceChildren(...this.hits.map((hit, place) => this.option(hit, place)));
    this.choose(-1);
    this.list.hidden = this.hits.length === 0;
    this.input.setAttribute("aria-expanded", String(!this.list.hidden));
  }

  option(hit, place) {
    const kind = element("span", { className: "kind" }, ` ${hit.kind.name.slice(0, -1)}`);
    const option = element("li", { id: `found-${place}`, role: "option" }, hit.name, kind);
    option.addEventListener("mousedown", event => { event.preventDefault(); this.follow(hit); });
    return option;
  }

  choose(place) {
    this.chosen = place;
    [...this.list.children].forEach((option, at) => option.setAttribute("aria-selected", String(at === place)));
    if (place < 0) { this.input.removeAttribute("aria-activedescendant"); return; }
    this.input.setAttribute("aria-activedescendant", `found-${place}`);
    this.list.children[place].scrollIntoView({ block: "nearest" });
  }

  press(event) {
    const steps = { ArrowDown: 1, ArrowUp: -1 };
    if (event.key === "Escape") {
      this.close();
    } else if (event.key in steps) {
      event.preventDefault();
      if (this.list.hidden) this.suggest();
      const count = this.hits.length + 1;       // one place more: the field itself
      if (this.hits.length) this.choose((this.chosen + 1 + steps[event.key] + count) % count - 1);
    }
  }

  /* What is chosen, or the package or source of exactly this name, or a page of all that is found. */
  open() {
    const words = this.input.value.trim();
    const { packages, sources } = site.kinds;
    const [packageNumber, sourceNumber] = [packages.find(words), sources.find(words)];
    if (this.chosen >= 0) this.follow(this.hits[this.chosen]);
    else if (packageNumber !== undefined) this.follow({ kind: packages, number: packageNumber });
    else if (sourceNumber !== undefined) this.follow({ kind: sources, number: sourceNumber });
    else if (words) this.go(`search.html#${encodeURIComponent(words)}`);
  }

  follow(hit) { this.go(hit.kind.link(hit.number)); }

  go(link) {
    this.close();
    location.href = link;
  }

  close() {
    this.list.hidden = true;
    this.choose(-1);
    this.input.setAttribute("aria-expanded", "false");
  }

  /* The key / leads to the field from wherever no text is written. */
  jump(event) {
    if (event.key === "/" && !event.ctrlKey && !event.metaKey && document.activeElement.tagName !== "INPUT") {
      event.preventDefault();
      this.input.focus();
    }
  }
}
