// What a player tells of a channel and of its words.

const row = (cells, properties = {}) => element("tr", properties, ...cells.map(cell => element("td", {textContent: cell})));
const rateOf = (words, cycles) => new Intl.NumberFormat("en", {maximumFractionDigits: 1}).format(1000 * words / cycles);

// A text with the same in physical units behind it, where there are some.
const withUnits = (text, physical) => physical ? `${text}, ${physical}` : text;

// The promise of a channel beside what it wished, its path, and the slots in which its flits enter the first link.
const tellPromise = (parts, channel, grant, way, data) => {
  const [words, per, latency] = channel.wish, nodes = way.links.map(number => data.links[number][1]);
  const texts = {
    name: channel.name,
    ends: `${channel.from} \u2192 ${channel.to}`,
    rate: withUnits(`${rateOf(grant.rate, data.slots)} words in 1,000 cycles (${grant.rate} in ${data.slots})`, grant.physical?.[0]),
    latency: withUnits(many(grant.latency, "cycle"), grant.physical?.[1]),
    buffer: many(grant.buffer, "word"),
    wish: withUnits(`${rateOf(words, per)} words in 1,000 cycles (${grouped(words)} in ${grouped(per)})`, channel.physical?.[0])
      + `; latency ${withUnits(many(latency, "cycle"), channel.physical?.[1])}`,
    path: [data.links[way.links[0]][0], ...nodes].join(" \u2192 "),
    slots: grant.starts.join(" "),
  };
  for (const [id, text] of Object.entries(texts)) {
    if (parts[id].textContent !== text) parts[id].textContent = text;
  }
};

// What a session has done by a cycle.
const tallyOf = (session, cycle, channel) => {
  const inUse = cycle < session.go ? `in use from cycle ${grouped(session.go)} on`
    : cycle >= session.end ? `in use from cycle ${grouped(session.go)} to ${grouped(session.end)}`
    : `in use since cycle ${grouped(session.go)}`;
  const [offered, sent, landed] = [session.offers, session.sent, session.landings].map(cycles => grouped(upTo(cycles, cycle)));
  const ended = session.broken !== null && cycle >= session.broken
    ? ` Its promise ended in cycle ${grouped(session.broken)}: its receiver hadn't kept its delay.` : "";
  const outside = channel.outside ? ` In the whole run ${many(channel.outside, "word")} came outside of all sessions.` : "";
  return `${inUse}: ${offered} offered, ${sent} sent, ${landed} landed.${ended}${outside}`;
};

// A word with its cycles; those that are still to come stand there too, but for those that the run doesn't reach.
const wordRow = (session, word, cycle, isChosen) => {
  const {text, mark} = session.state(word, cycle), told = number => number === NEVER ? "-" : grouped(number);
  const cells = [grouped(word + 1), ...[session.offers, session.sent, session.landings, session.dues].map(list => told(list[word])), text];
  const line = row(cells, {className: mark});
  line.dataset.word = word;
  if (isChosen) line.setAttribute("aria-current", "true");
  return line;
};

const unpackedText = async text => {
  const bytes = Uint8Array.from(atob(text), letter => letter.charCodeAt(0));
  return new Response(new Blob([bytes]).stream().pipeThrough(new DecompressionStream("deflate"))).text();
};

// Makes the player of a page within an element of it, of its template and its packed data. One that has the page for itself
// begins as the end of the page's address says: as `#use=decode&channel=cpu_mem fwd&time=12`.
const openPlayer = async (host, isWhole) => {
  const data = JSON.parse(await unpackedText(document.getElementById("player-data").textContent));
  const root = host.attachShadow({mode: "open"});
  root.append(document.getElementById("player-parts").content.cloneNode(true));
  const player = new Player(root, data, isWhole), asked = new URLSearchParams(location.hash.slice(1));
  host.player = player;
  if (!isWhole) return;
  const scene = player.scenes.find(one => !one.isRun && one.use.name === asked.get("use"));
  if (scene) player.enter(scene);
  const followed = player.channels.find(channel => channel.name === asked.get("channel"));
  if (followed) player.follow(followed);
  if (asked.has("time")) player.go(Number(asked.get("time")) || 0);
};
