
const CHUNK = 60;  // rows that are shown at first, and that are added where a reader comes to the end
const table = document.querySelector("table"), body = table.tBodies[0], heads = [...table.tHead.rows[0].cells];
const kinds = heads.map(head => head.className), names = heads.map(head => head.querySelector("button").firstChild.data);
const search = document.querySelector("#search"), only = document.querySelector("#only"), count = document.querySelector("#count");
const unpacked = async text => {
  const bytes = Uint8Array.from(atob(text), letter => letter.charCodeAt(0));
  const stream = new Blob([bytes]).stream().pipeThrough(new DecompressionStream("deflate"));
  return new Response(stream).text();
};
const rows = await unpacked(document.querySelector("#rows").textContent).then(JSON.parse).catch(error => {
  count.textContent = `This browser can't unpack the table (${error.message}).`;
  return [];
});  // of each its mark, and its cells
const value = cell => Array.isArray(cell) ? cell[0] : cell;
const texts = rows.map(row => row.slice(1).filter((_, at) => kinds[at] === "text").map(text => (text ?? "").toLowerCase()));
const format = new Intl.NumberFormat("en", {maximumFractionDigits: 3}).format;
const collator = new Intl.Collator("en", {numeric: true});
let order = rows.map((_, at) => at), matching = order, shown = 0;

const escaped = text => text.replace(/[&<>]/g, letter => ({"&": "&amp;", "<": "&lt;", ">": "&gt;"})[letter]);
const counted = new Set(["late", "overdue", "refused", "promise ended"]);
const cellHtml = (cell, at) => {
  const marked = counted.has(names[at]) && cell ? " marked" : "";
  if (cell === null) return `<td class="${kinds[at]}"></td>`;
  if (kinds[at] === "share") {
    return `<td class="share${cell > 100 ? " over" : ""}" style="--share:${Math.min(100, cell)}%">${format(cell)} %</td>`;
  }
  if (Array.isArray(cell)) return `<td class="number">${format(cell[0])} <small>(${escaped(cell[1])})</small></td>`;
  if (typeof cell === "number") return `<td class="number${marked}">${format(cell)}</td>`;
  return `<td class="${names[at] === "use cases" ? "uses" : "text"}${marked}">${escaped(cell)}</td>`;
};
const rowHtml = at => {
  const [mark, ...cells] = rows[at];
  return `<tr class="${mark}">${cells.map(cellHtml).join("")}</tr>`;
};
const showMore = most => {
  body.insertAdjacentHTML("beforeend", matching.slice(shown, shown + most).map(rowHtml).join(""));
  shown = Math.min(matching.length, shown + most);
};
const showAnew = () => {
  body.textContent = "";
  shown = 0;
  table.parentElement.scrollTop = 0;
  showMore(CHUNK);
};
const filter = () => {
  const words = search.value.toLowerCase().split(/\s+/).filter(Boolean);
  matching = order.filter(at => (!only?.checked || rows[at][0]) &&
    words.every(word => texts[at].some(text => text.includes(word))));
  count.textContent = `${matching.length} of ${rows.length} rows`;
  showAnew();
};
const sort = head => {
  const down = head.getAttribute("aria-sort") === "ascending", at = head.cellIndex + 1;
  for (const other of heads) other.removeAttribute("aria-sort");
  head.setAttribute("aria-sort", down ? "descending" : "ascending");
  const isText = kinds[at - 1] === "text", sign = down ? -1 : 1;
  order.sort((one, other) => {
    const a = value(rows[one][at]), b = value(rows[other][at]);
    if (a === null || b === null) return (a === null) - (b === null);
    return (isText ? collator.compare(a, b) : a - b) * sign || one - other;
  });
  filter();
};
table.tHead.addEventListener("click", event => {
  const head = event.target.closest("th");
  if (head) sort(head);
});
table.parentElement.addEventListener("scroll", ({target}) => {
  if (target.scrollTop + 2 * target.clientHeight > target.scrollHeight) showMore(CHUNK);
});
search.addEventListener("input", filter);
only?.addEventListener("change", filter);
addEventListener("beforeprint", () => {
  showMore(matching.length);
  for (const key of document.querySelectorAll(".key")) key.open = true;
});
filter();

const unpack = async details => {
  const figure = details.querySelector("figure");
  if (figure.firstChild) return;
  figure.textContent = "..";
  try {
    const text = await unpacked(details.querySelector("script").textContent);
    const picture = document.createElement("object"), {width, height} = figure.dataset;
    picture.type = "image/svg+xml";
    picture.data = URL.createObjectURL(new Blob([text], {type: "image/svg+xml"}));
    picture.setAttribute("aria-label", details.querySelector("summary").textContent);
    picture.style = `--full:${width}px;--least:${Math.round(0.55 * width)}px;--shape:${width}/${height}`;
    figure.replaceChildren(picture);
  } catch (error) {
    figure.textContent = `This browser can't unpack the picture (${error.message}): draw makes it alone.`;
  }
};
for (const details of document.querySelectorAll(".picture")) {
  details.addEventListener("toggle", () => { if (details.open) unpack(details); });
  if (details.open) unpack(details);
}
const player = document.querySelector("#play");
player?.addEventListener("toggle", () => {
  const stage = player.querySelector("#stage");
  if (!player.open || stage.dataset.isOpened) return;
  stage.dataset.isOpened = true;
  openPlayer(stage, false).catch(error => { stage.textContent = `This browser can't show the player: ${error.message}`; });
});
const asked = location.hash.length > 1 && document.getElementById(decodeURIComponent(location.hash.slice(1)));
if (asked && asked.tagName === "DETAILS") asked.open = true;
