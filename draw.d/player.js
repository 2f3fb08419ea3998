// The controls of a player, what it tells beside its map, and its keys.

const STEPS = [0.5, 1, 2, 5, 10, 20, 50, 100, 200];  // speeds, in slots or cycles a second
const CALM = 2;  // the greatest speed at which what is followed is kept in sight
const TELL = 120;  // milliseconds between two texts while it plays
const MOST_ERAS = 40;  // use cases of a run that are named below its cycles
const WINDOW = 7;  // words of a channel that are told at a time
const grouped = new Intl.NumberFormat("en").format;
const many = (number, thing) => `${grouped(number)} ${thing}${number === 1 ? "" : "s"}`;
const element = (name, properties = {}, ...children) => {
  const made = Object.assign(document.createElement(name), properties);
  made.append(...children);
  return made;
};

class Player {
  // With `isWhole` it has the page for itself, and its keys too where nothing of the page is chosen.
  constructor(root, data, isWhole) {
    this.data = data;
    this.parts = Object.fromEntries([...root.querySelectorAll("[id]")].map(part => [part.id, part]));
    this.calm = matchMedia("(prefers-reduced-motion: reduce)");
    this.chart = new Chart(this.parts.sheet, data, place => this.follow(this.channels[place]));
    this.channels = channelsOf(data, this.chart.routes);
    this.scenes = data.uses.map(use => new SlotScene(use, this.channels, data.slots));
    if (data.run) this.scenes.unshift(new RunScene(data.run, this.channels));
    Object.assign(this, {time: 0, playing: 0, followed: null, pinned: null, era: null, told: 0});
    this.fill();
    this.listen();
    if (isWhole) document.addEventListener("keydown", event => this.keyOfPage(event));
    this.enter(this.scenes[0]);
  }

  fill() {
    const {scene, speed} = this.parts;
    this.scenes.forEach((one, at) => scene.append(new Option(
      one.isRun ? `the run of ${many(one.length, "cycle")}` : `the slots of use case ${one.useAt()}`, at)));
    for (const step of STEPS) speed.append(new Option(`${step} a second`, step));
    speed.value = this.calm.matches ? 1 : 2;
  }

  // Shows a run or the slots of a use case, from the beginning.
  enter(scene) {
    this.scene = scene;
    this.era = null;
    this.parts.scene.value = this.scenes.indexOf(scene);
    this.parts.time.max = scene.length - 1;
    this.parts.time.setAttribute("aria-label", scene.isRun ? "Cycle" : "Slot");
    this.listEras();
    this.listChannels();
    if (this.followed && !this.followable.includes(this.followed)) this.followed = null;
    this.pinned = null;
    this.set(0);
  }

  // The use cases of a run below its cycles, each as wide as it is long.
  listEras() {
    const {scene, parts: {eras}} = this, switches = scene.isRun ? scene.run.switches : [];
    eras.replaceChildren(...switches.map(([begin,, use], at) => {
      const end = switches[at + 1]?.[0] ?? scene.length;
      return element("span", {textContent: use, title: `${use} from cycle ${grouped(begin)}`, style: `flex-grow:${end - begin}`});
    }));
    eras.hidden = switches.length < 2 || switches.length > MOST_ERAS;
  }

  get followable() {
    return this.scene.isRun ? this.channels.filter(channel => channel.sessions.length) : this.scene.channels;
  }

  listChannels() {
    const rows = this.followable.map(channel => element("div", {id: `channel-${channel.place}`, role: "option"},
      element("span", {className: `swatch k${channel.colour} ${sideOf(channel)}`, textContent: channel.number}),
      ` ${channel.name} `, element("small", {textContent: `${channel.from} \u2192 ${channel.to}`})));
    const all = element("div", {id: "channel-all", role: "option", textContent: "all channels"});
    this.parts.channels.replaceChildren(all, ...rows);
    this.search();
  }

  search() {
    const words = this.parts.search.value.toLowerCase().split(/\s+/).filter(Boolean);
    for (const row of this.parts.channels.children) {
      row.hidden = row.id !== "channel-all" && !words.every(word => row.textContent.toLowerCase().includes(word));
    }
    this.mark();
  }

  // Marks the channel that is followed in the list.
  mark() {
    const {channels} = this.parts, id = `channel-${this.followed?.place ?? "all"}`;
    for (const row of channels.children) row.setAttribute("aria-selected", row.id === id);
    channels.setAttribute("aria-activedescendant", id);
    const row = channels.querySelector(`#${id}`);
    if (row) channels.scrollTop += Math.min(0, row.offsetTop - channels.scrollTop)
      + Math.max(0, row.offsetTop + row.offsetHeight - channels.scrollTop - channels.clientHeight);
  }

  follow(channel) {
    this.followed = channel && this.followable.includes(channel) ? channel : null;
    this.pinned = null;
    this.era = null;
    this.mark();
    this.show();
    this.say(this.followed ? `${this.followed.name} is followed, from ${this.followed.from} to ${this.followed.to}` : "all channels");
    if (this.followed) this.bringNear();
  }

  bringNear() {
    const channel = this.followed, session = this.session;
    const at = session && this.at !== null ? this.chart.spotOf(channel, session, this.time, this.at) : channel.ends.slice(0, 2);
    if (at) this.chart.bringNear(at, this.parts.map);
  }

  // The cycle or slot that is told: a flit is in the middle of a link then.
  get cycle() {
    const cycle = Math.round(this.time);
    return this.scene.isRun ? Math.min(cycle, this.scene.length - 1) : cycle % this.scene.length;
  }

  get session() {
    return this.followed && this.scene.isRun ? this.scene.sessionAt(this.followed, this.cycle) : null;
  }

  // The word that is followed: one that was chosen, or the one that is next to land.
  get at() {
    const {session, pinned} = this;
    return pinned && pinned.session === session ? pinned.word : session?.wordAt(this.cycle) ?? null;
  }

  set(time) {
    const {length, isRun} = this.scene;
    this.time = isRun ? Math.min(Math.max(time, 0), length - 1) : (time % length + length) % length;
    this.show();
  }

  // Another time that a reader has chosen: a whole one.
  go(time) {
    this.pause();
    this.set(Math.round(time));
    if (this.followed) this.bringNear();
    this.say(this.sentence());
  }

  step(by) { this.go(Math.round(this.time) + by); }

  pause() {
    cancelAnimationFrame(this.playing);
    this.playing = 0;
    this.parts.play.textContent = "Play";
  }

  play() {
    if (this.playing) {
      this.pause();
      this.set(Math.round(this.time));
      return this.say(this.sentence());
    }
    if (this.scene.isRun && this.time >= this.scene.length - 1) this.time = 0;
    this.parts.play.textContent = "Pause";
    let before = null, exact = this.time;
    const frame = now => {
      exact += before === null ? 0 : Math.min(now - before, 250) / 1000 * Number(this.parts.speed.value);
      before = now;
      if (this.scene.isRun && exact >= this.scene.length - 1) {
        this.pause();
        return this.set(this.scene.length - 1);
      }
      this.playing = requestAnimationFrame(frame);
      this.set(this.calm.matches ? Math.floor(exact) : exact);
    };
    this.playing = requestAnimationFrame(frame);
  }

  // Follows the word before or behind the one that is told, in the cycle in which it is offered.
  stepWord(by) {
    const session = this.session, at = this.at;
    if (!session?.offers.length) return this.say(session ? "no word is offered in this session" : "no channel of a run is followed");
    const {sessions} = this.followed, place = sessions.indexOf(session);
    const word = at === null ? 0 : at + by;
    if (word >= 0 && word < session.offers.length) return this.goWord(session, word);
    const other = sessions.slice(by > 0 ? place + 1 : 0, by > 0 ? undefined : place).filter(one => one.offers.length).at(by > 0 ? 0 : -1);
    if (other) this.goWord(other, by > 0 ? 0 : other.offers.length - 1);
  }

  goWord(session, word) {
    this.pinned = {session, word};
    this.go(session.offers[word]);
  }

  show() {
    const {scene, cycle, followed} = this, era = scene.eraAt(cycle);
    if (era !== this.era) {
      this.chart.showTables(scene, cycle, followed);
      this.era = era;
    }
    if (this.pinned && cycle > this.pinned.session.landings[this.pinned.word] + 1) this.pinned = null;
    this.chart.showFlits(scene, this.time, followed);
    this.chart.showCursor(cycle % this.data.slots);
    this.chart.showWords(followed, this.session, this.time, this.at);
    const now = performance.now();
    if (!this.playing || now - this.told > TELL) {
      this.told = now;
      this.tell();
      if (this.playing && this.followed && this.parts.speed.value <= CALM) this.bringNear();
    }
  }

  sentence() {
    const {scene, cycle} = this, on = [];
    scene.visit(cycle, (name, channel, way, since) => {
      if (way.linkAt(since) !== null && (!this.followed || channel === this.followed)) on.push(channel);
    });
    const flits = `${many(on.length, "flit")}${this.followed ? ` of ${this.followed.name}` : ""} on links`, at = this.at;
    const word = at === null ? "" : `; word ${grouped(at + 1)} ${this.session.state(at, cycle).text}`;
    return `${this.moment()}: ${flits}${word}`;
  }

  moment() {
    const {scene, cycle} = this, use = `use case ${scene.useAt(cycle)}`;
    const time = this.data.cycle ? ` (${grouped(cycle * this.data.cycle)} ns)` : "";
    return scene.isRun ? `cycle ${grouped(cycle)} of ${grouped(scene.length)}${time}, slot ${cycle % this.data.slots}, ${use}`
      : `slot ${cycle} of ${scene.length}, ${use}`;
  }

  say(text) { this.parts.status.textContent = text; }

  // Writes the texts of a time.
  tell() {
    const {time, now, links} = this.parts, moment = this.moment();
    time.value = this.cycle;
    time.setAttribute("aria-valuetext", moment);
    now.textContent = moment;
    if (links.open) this.tellLinks();
    this.tellChannel();
  }

  tellLinks() {
    const rows = [];
    this.scene.visit(this.cycle, (name, channel, way, since, count) => {
      const place = way.linkAt(since);
      if (place !== null) rows.push([way.links[place], channel, count]);
    });
    rows.sort((one, other) => one[0] - other[0]);
    this.parts.onlinks.replaceChildren(...rows.map(([link, channel, count]) => row([
      link, this.data.links[link].slice(0, 2).join(" \u2192 "), channel.name, this.scene.isRun ? count || "credits" : ""])));
  }

  tellChannel() {
    const {about, words, tally} = this.parts, channel = this.followed;
    for (const part of [about, this.parts.wordsof]) part.hidden = !channel;
    if (!channel) return;
    const {cycle, scene, session} = this, grant = scene.grantOf(channel, cycle), way = scene.wayOf(channel, cycle);
    tellPromise(this.parts, channel, grant, way, this.data);
    this.parts.wordsof.hidden = !session;
    if (!session) return;
    tally.textContent = tallyOf(session, cycle, channel);
    const at = this.at, first = at === null ? 0 : Math.max(0, Math.min(at - (WINDOW >> 1), session.offers.length - WINDOW));
    const shown = at === null ? [] : [...session.offers.slice(first, first + WINDOW).keys()].map(place => first + place);
    words.replaceChildren(...shown.map(word => wordRow(session, word, cycle, word === at)));
    this.parts.word.textContent = at === null ? "no word yet" : `word ${grouped(at + 1)} of ${grouped(session.offers.length)}`;
  }

  listen() {
    const {parts} = this, press = (id, does) => parts[id].addEventListener("click", does);
    press("play", () => this.play());
    press("back", () => this.step(-1));
    press("on", () => this.step(1));
    press("first", () => this.go(0));
    press("last", () => this.go(this.scene.length - 1));
    press("before", () => this.stepWord(-1));
    press("behind", () => this.stepWord(1));
    press("leave", () => { this.follow(null); parts.channels.focus(); });
    press("words", event => {
      const line = event.target.closest("tr");
      if (line) this.goWord(this.session, Number(line.dataset.word));
    });
    parts.time.addEventListener("input", () => { this.pause(); this.set(Number(parts.time.value)); });
    parts.scene.addEventListener("change", () => { this.pause(); this.enter(this.scenes[parts.scene.value]); });
    parts.search.addEventListener("input", () => this.search());
    parts.links.addEventListener("toggle", () => this.tell());
    parts.channels.addEventListener("click", event => {
      const chosen = event.target.closest("[role=option]");
      if (chosen) this.follow(this.channels[chosen.id.split("-")[1]] ?? null);
    });
    parts.size.addEventListener("change", () => { parts.map.className = parts.size.value; });
    parts.player.addEventListener("keydown", event => this.key(event));
  }

  keyOfPage(event) {
    if (event.target === document.body && !/^(Home|End|Page)/.test(event.key)) this.key(event);
  }

  key(event) {
    const {target} = event;
    if (event.ctrlKey || event.altKey || event.metaKey || target.matches?.("input[type=search], select")) return;
    const isList = target === this.parts.channels, round = this.data.slots;
    const moves = {ArrowUp: -1, ArrowDown: 1, Home: -Infinity, End: Infinity};
    const does = isList && event.key in moves ? () => this.move(moves[event.key]) : {
      " ": target.matches?.("button, summary") ? null : () => this.play(),
      ArrowLeft: () => this.step(-1), ArrowRight: () => this.step(1), PageUp: () => this.step(-round),
      PageDown: () => this.step(round), Home: () => this.go(0), End: () => this.go(this.scene.length - 1),
      n: () => this.stepWord(1), p: () => this.stepWord(-1), Escape: () => this.follow(null),
      "+": () => this.faster(1), "-": () => this.faster(-1),
    }[event.key];
    if (!does || target === this.parts.map && event.key.startsWith("Arrow")) return;
    event.preventDefault();
    does();
  }

  faster(by) {
    const {speed} = this.parts;
    speed.selectedIndex = Math.min(STEPS.length - 1, Math.max(0, speed.selectedIndex + by));
    this.say(speed.selectedOptions[0].text);
  }

  // Follows another channel of the list.
  move(by) {
    const rows = [...this.parts.channels.children].filter(row => !row.hidden);
    const at = rows.findIndex(row => row.getAttribute("aria-selected") === "true");
    const next = rows[Math.min(rows.length - 1, Math.max(0, at + by))];
    this.follow(this.channels[next.id.split("-")[1]] ?? null);
  }
}
