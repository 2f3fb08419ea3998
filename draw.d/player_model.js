"use strict";
// What moves: the flits of a table's slots or of a run, where each is at a time, and what became of each word.

const CROSS = 0.12;  // half the part of a cycle in which a flit crosses a router
const summed = steps => {
  let sum = 0;
  return Int32Array.from(steps, step => sum += step);
};
// How many of some numbers in order are at most as great as one.
const upTo = (numbers, most) => {
  let low = 0, high = numbers.length;
  while (low < high) {
    const middle = (low + high) >> 1;
    if (numbers[middle] <= most) low = middle + 1; else high = middle;
  }
  return low;
};

// The way of a channel's flits from core to core. `knots` has times since a flit enters the first link, each with how far
// it is along the line then: in the middle of a link of one cycle at a whole cycle.
class Way {
  constructor(grant, ends, links, routes) {
    this.links = grant.links;
    this.entries = [];
    const lines = this.links.map(number => routes[number]);
    this.points = [ends.slice(0, 2), ...lines.flat(), ends.slice(2)];
    this.far = [0];
    for (let at = 1; at < this.points.length; at++) {
      const [x, y] = this.points[at - 1], [x1, y1] = this.points[at];
      this.far.push(this.far[at - 1] + Math.hypot(x1 - x, y1 - y));
    }
    this.knots = [[-0.6, 0]];
    let at = 1, cycle = 0;
    this.links.forEach((number, place) => {
      this.entries.push(cycle);
      this.knots.push([cycle - 0.5 + CROSS, this.far[at]]);
      at += lines[place].length;
      cycle += links[number][2];
      this.knots.push([cycle - 0.5 - CROSS, this.far[at - 1]]);
    });
    this.delay = cycle;
    this.knots.push([cycle - 0.1, this.far.at(-1)]);
    this.line = "M" + this.points.map(([x, y]) => `${x} ${y}`).join("L");
  }

  // Where a flit is so many cycles after it has entered the first link.
  at(time) {
    const {knots, far, points} = this;
    let next = 1;
    while (next < knots.length - 1 && knots[next][0] < time) next++;
    const [before, low] = knots[next - 1], [after, high] = knots[next];
    const along = low + (high - low) * Math.min(1, Math.max(0, (time - before) / (after - before)));
    let end = 1;
    while (end < far.length - 1 && far[end] < along) end++;
    const part = far[end] > far[end - 1] ? (along - far[end - 1]) / (far[end] - far[end - 1]) : 0;
    const [x, y] = points[end - 1], [x1, y1] = points[end];
    return [x + (x1 - x) * part, y + (y1 - y) * part];
  }

  // The place on its path of the link on which a flit is in a whole cycle; none where it is on none.
  linkAt(cycle) {
    return cycle < 0 || cycle >= this.delay ? null : upTo(this.entries, cycle) - 1;
  }
}

// A session of a channel: a time in which it is in use, with its words. A cycle that never comes is `NEVER`.
const NEVER = 0x7fffffff;
class Session {
  constructor(told, way, grant) {
    Object.assign(this, {go: told.go, end: told.end, ended: told.ended, last: told.last, broken: told.broken, way, grant});
    this.offers = summed(told.offered);
    this.dues = this.offers.map((offer, at) => offer + told.dues[at]);
    this.landings = this.offers.map((offer, at) => at < told.waits.length ? offer + told.waits[at] : NEVER);
    this.flits = summed(told.sent);
    this.counts = Uint8Array.from(told.counts);
    this.first = new Int32Array(this.counts.length);  // of each flit the place of its first word
    this.sent = new Int32Array(this.offers.length).fill(NEVER);
    let word = 0;
    this.counts.forEach((count, flit) => {
      this.first[flit] = word;
      for (let end = word + count; word < end && word < this.sent.length; word++) this.sent[word] = this.flits[flit];
    });
  }

  // The word to tell of in a cycle: the first that hasn't landed of those that were offered, or else the last one.
  wordAt(cycle) {
    const offered = upTo(this.offers, cycle);
    return offered ? Math.min(upTo(this.landings, cycle - 1), offered - 1) : null;
  }

  // What became of a word by a cycle, in words; `mark` is late where it landed, or should have, after its due cycle.
  state(word, cycle) {
    const landing = this.landings[word], due = this.dues[word];
    if (cycle < this.offers[word]) return {text: "to come", mark: ""};
    if (landing <= cycle) {
      return landing > due ? {text: `landed, late by ${landing - due}`, mark: "late"} : {text: "landed", mark: "landed"};
    }
    if (this.ended && cycle >= this.end) return {text: "dropped", mark: "late"};
    const late = cycle > due && due < this.last ? ", overdue" : "", mark = late ? "late" : "";
    if (cycle < this.sent[word]) return {text: "waits at its core" + late, mark};
    const place = this.way.linkAt(cycle - this.sent[word]);
    return {text: place === null ? "lands" : `on link ${this.way.links[place]}${late}`, mark};
  }
}

// The flits of the slots of a use case. The time goes round the table.
class SlotScene {
  constructor(use, channels, slots) {
    Object.assign(this, {use, length: slots, unit: "slot", isRun: false});
    const own = new Set(use.connections);
    this.channels = channels.filter(channel => own.has(channel.number) && channel.ways[use.group]);
  }

  wayOf(channel) { return channel.ways[this.use.group]; }
  grantOf(channel) { return channel.grants[this.use.group]; }
  eraAt() { return 0; }
  active() { return this.channels; }
  useAt() { return this.use.name; }

  // Calls `visit` for each flit that is on its way, with a name of its own, its channel, its way and its time on it.
  visit(time, visit) {
    for (const channel of this.channels) {
      const way = this.wayOf(channel);
      for (const start of this.grantOf(channel).starts) {
        const since = ((time - start + 0.6) % this.length + this.length) % this.length - 0.6;
        for (let late = since; late < way.delay + 0.25; late += this.length) {
          visit(`${channel.place}:${start}:${(late - since) / this.length}`, channel, way, late, 2);
        }
      }
    }
  }
}

// The flits of a run.
class RunScene {
  constructor(run, channels) {
    Object.assign(this, {run, channels, length: run.cycles, unit: "cycle", isRun: true});
    const flits = [];
    for (const channel of channels) {
      for (const session of channel.sessions) {
        session.flits.forEach((cycle, at) => flits.push([cycle, channel, session, at]));
      }
    }
    flits.sort((one, other) => one[0] - other[0]);
    this.flits = flits;
    this.since = new Int32Array(this.length + 1);  // of each cycle the first flit that enters then or later
    for (let cycle = 0, flit = 0; cycle <= this.length; cycle++) {
      while (flit < flits.length && flits[flit][0] < cycle) flit++;
      this.since[cycle] = flit;
    }
    const sessions = channels.flatMap(channel => channel.sessions);
    this.longest = sessions.reduce((longest, {way}) => Math.max(longest, way.delay), 0);
    this.eras = Int32Array.from(new Set(sessions.flatMap(({go, end}) => [go, end]))).sort();
  }

  sessionAt(channel, cycle) {
    return channel.sessions.findLast(session => session.go <= cycle) ?? channel.sessions[0];
  }

  wayOf(channel, cycle) { return this.sessionAt(channel, cycle)?.way ?? Object.values(channel.ways)[0]; }
  grantOf(channel, cycle) { return this.sessionAt(channel, cycle)?.grant ?? Object.values(channel.grants)[0]; }
  eraAt(cycle) { return upTo(this.eras, cycle); }  // all of one era have the same channels in use

  active(cycle) {
    return this.channels.filter(channel => channel.sessions.some(({go, end}) => go <= cycle && cycle < end));
  }

  useAt(cycle) {
    const {switches} = this.run, at = switches.findLastIndex(([begin]) => begin <= cycle), [, over, use] = switches[at];
    return cycle < over ? `${switches[at - 1][2]}, on the way to ${use}` : use;
  }

  visit(time, visit) {
    const last = Math.min(this.length - 1, Math.floor(time + 0.6)), first = Math.max(0, Math.ceil(time - this.longest - 0.25));
    for (let flit = this.since[Math.min(first, this.length)]; flit < this.since[Math.max(0, last + 1)]; flit++) {
      const [cycle, channel, session, at] = this.flits[flit], since = time - cycle;
      if (since < session.way.delay + 0.25) visit(flit, channel, session.way, since, session.counts[at], session.first[at]);
    }
  }
}

// The channels of a player's data, with their ways and sessions.
const channelsOf = (data, routes) => data.channels.map((told, place) => {
  const ways = {};
  for (const [group, grant] of Object.entries(told.grants)) ways[group] = new Way(grant, told.ends, data.links, routes);
  const sessions = (told.sessions ?? []).map(one => new Session(one, ways[one.group], told.grants[one.group]));
  return {...told, place, ways, sessions};
});
