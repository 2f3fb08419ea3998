// The map of a player: the ground, the tables of slots, and the flits on their ways.

const SVG = "http://www.w3.org/2000/svg";
const drawn = (name, attributes, ...children) => {
  const element = document.createElementNS(SVG, name);
  for (const [key, value] of Object.entries(attributes)) element.setAttribute(key, value);
  element.append(...children);
  return element;
};
const sideOf = channel => channel.side ? "back" : "fwd";
const HALF = {fwd: [11, 7], back: [11, 5.5]};  // of what is drawn of a flit

class Chart {
  // `sheet` is the element of a page in which it stands, and `pick` is called with a channel on which a reader clicks.
  constructor(sheet, data, pick) {
    sheet.innerHTML = data.ground;
    const ground = sheet.firstElementChild;
    this.sheet = sheet;
    this.data = data;
    this.routes = [...ground.querySelectorAll(".line")].map(line =>
      line.getAttribute("d").slice(1).split("L").map(point => point.split(" ").map(Number)));
    this.cells = ground.appendChild(drawn("g", {class: "cells"}));
    this.moving = drawn("svg", {class: "moving", viewBox: ground.getAttribute("viewBox"), "aria-hidden": "true"});
    sheet.append(this.moving);
    this.cursors = [0, 1].map(upright => this.moving.appendChild(drawn("path", {class: "cursor", d: this.marks(upright)})));
    this.way = this.moving.appendChild(drawn("path", {class: "way"}));
    this.flits = this.moving.appendChild(drawn("g", {}));
    this.tallies = ["start", "end"].map(() => this.moving.appendChild(drawn("text", {class: "tally"})));
    this.ring = this.moving.appendChild(drawn("circle", {class: "ring", r: 15}));
    this.shown = new Map();  // of each flit that is shown its element
    this.spare = {};  // elements that show no flit, by their class
    this.tables = new Map();  // of each way what is drawn of it in the tables
    for (const layer of [this.cells, this.flits]) {
      layer.addEventListener("click", event => {
        const own = event.target.closest("[data-channel]");
        if (own) pick(Number(own.dataset.channel));
      });
    }
  }

  // A mark over the first cell of each table of one kind.
  marks(upright) {
    const {corners, cell, high} = this.data;
    const own = corners.filter(corner => corner[2] === upright), wide = Math.max(cell - 1, 1);
    return own.map(([x, y]) => upright ? `M${x - 2} ${y - 1}h${high + 3}v${wide + 2}h${-high - 3}z`
      : `M${x - 1} ${y - 2}v${high + 3}h${wide + 2}v${-high - 3}z`).join("");
  }

  // The cells of a channel in the tables of its way.
  table(channel, way, grant) {
    const {corners, cell, high, slots} = this.data, path = [], long = Math.max(cell - (cell > 3), 1);
    way.links.forEach((number, place) => {
      const [left, top, upright] = corners[number];
      for (const start of grant.starts) {
        const along = (start + way.entries[place]) % slots * cell;
        path.push(upright ? `M${left + high / 2} ${top + along}v${long}` : `M${left + along} ${top + high / 2}h${long}`);
      }
    });
    const line = drawn("path", {d: path.join(""), "stroke-width": channel.side ? high / 2 : high - 1});
    return drawn("g", {class: `c k${channel.colour}`, "data-channel": channel.place}, line);
  }

  // Shows the tables of what is in use in a cycle, with one channel above all others where one is followed.
  showTables(scene, cycle, followed) {
    const wanted = new Set();
    for (const channel of scene.active(cycle)) {
      const way = scene.wayOf(channel, cycle);
      if (!this.tables.has(way)) {
        this.tables.set(way, this.table(channel, way, scene.grantOf(channel, cycle)));
      }
      wanted.add(this.tables.get(way));
    }
    this.cells.replaceChildren(...wanted);
    for (const group of wanted) group.classList.toggle("own", Number(group.dataset.channel) === followed?.place);
    this.sheet.classList.toggle("following", Boolean(followed));
    this.way.setAttribute("d", followed ? scene.wayOf(followed, cycle).line : "");
  }

  // An element for a flit: one that was shown before, where there is one of its kind.
  element(channel, isEmpty) {
    const kind = `flit ${sideOf(channel)} k${channel.colour}${isEmpty ? " empty" : ""}`, spare = this.spare[kind] ??= [];
    const found = spare.pop() ?? this.newElement(kind, HALF[sideOf(channel)]);
    if (found.channel !== channel) {
      found.channel = channel;
      found.group.dataset.channel = channel.place;
      found.text.data = channel.number;
    }
    return found;
  }

  newElement(kind, [wide, high]) {
    const text = document.createTextNode("");
    const group = drawn("g", {class: kind},
      drawn("rect", {x: -wide, y: -high, width: 2 * wide, height: 2 * high, rx: high < 7 ? high : 2}), drawn("text", {y: 3.5}, text));
    this.flits.append(group);
    return {kind, group, text, channel: null};
  }

  // Shows the flits of a time. Each keeps its element for as long as it is on its way.
  showFlits(scene, time, followed) {
    const before = this.shown, shown = new Map();
    scene.visit(time, (name, channel, way, since, count) => {
      const found = before.get(name) ?? this.element(channel, count === 0);
      before.delete(name);
      const [x, y] = way.at(since);
      found.group.setAttribute("transform", `translate(${x.toFixed(1)} ${y.toFixed(1)})`);
      const other = Boolean(followed) && channel !== followed;
      if (found.other !== other) found.group.classList.toggle("other", found.other = other);
      if (found.hidden) found.group.style.display = "";
      found.hidden = false;
      shown.set(name, found);
    });
    for (const found of before.values()) {
      found.group.style.display = "none";
      found.hidden = true;
      this.spare[found.kind].push(found);
    }
    this.shown = shown;
  }

  showCursor(slot) {
    const along = slot * this.data.cell;
    this.cursors[0].setAttribute("transform", `translate(${along} 0)`);
    this.cursors[1].setAttribute("transform", `translate(0 ${along})`);
  }

  // Tells at both ends of a followed channel how many words wait and have landed, and rings the word that is followed.
  showWords(channel, session, time, word) {
    const texts = ["", ""];
    if (session) {
      const cycle = Math.round(time), offered = upTo(session.offers, cycle), sent = upTo(session.sent, cycle);
      texts[0] = `${offered - Math.min(sent, offered)} waiting`;
      texts[1] = `${upTo(session.landings, cycle)} landed`;
    }
    this.tallies.forEach((tally, at) => {
      if (tally.textContent !== texts[at]) tally.textContent = texts[at];
      if (channel) {
        tally.setAttribute("x", channel.ends[2 * at]);
        tally.setAttribute("y", channel.ends[2 * at + 1] + 22);
      }
    });
    const at = session && word !== null ? this.spotOf(channel, session, time, word) : null;
    this.ring.style.display = at ? "" : "none";
    if (at) this.ring.setAttribute("transform", `translate(${at[0].toFixed(1)} ${at[1].toFixed(1)})`);
  }

  // Where a word is.
  spotOf(channel, session, time, word) {
    const since = time - session.sent[word];
    if (session.ended && time >= session.end && session.landings[word] > session.end) return null;
    return since < -0.6 ? channel.ends.slice(0, 2) : session.way.at(since);
  }

  // Brings a word, or else the way of a channel, to where a reader sees it.
  bringNear([x, y], box) {
    const [left, top, width, height] = this.moving.getAttribute("viewBox").split(" ").map(Number);
    const {scrollWidth, scrollHeight, clientWidth, clientHeight} = box;
    const across = (x - left) / width * scrollWidth, down = (y - top) / height * scrollHeight;
    if (across < box.scrollLeft + 30 || across > box.scrollLeft + clientWidth - 30) box.scrollLeft = across - clientWidth / 2;
    if (down < box.scrollTop + 30 || down > box.scrollTop + clientHeight - 30) box.scrollTop = down - clientHeight / 2;
  }
}
