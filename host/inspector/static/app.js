// The inspector's page. All data come from the server; a pixel is R, G, B, A, premultiplied, and row 0 is the lowest.
"use strict";

const byId = (id) => document.getElementById(id);
const canvas = byId("view");
const pen = canvas.getContext("2d");

const MOST_ZOOM = 64;
const GRID_FROM = 8;
const UNITS = 256; // of an edge's coordinates, to a pixel
const HINT = "Click a pixel of the picture: here it is said why it has its colour. The wheel zooms, dragging moves, arrow keys go to " +
  "the next pixel. The pointer on a draw of the list shows its box and its edges.";

// What is looked at. The address holds the same, so that a view can be kept.
const state = { scene: 0, off: [new Set(), new Set()], x: null, y: null, boxes: false, edges: false, area: false, planned: false };
const LAYERS = ["boxes", "edges", "area", "planned"];
// The scene's facts, its pixels, and these as an image.
let facts = null, pixels = null, image = null, change = null;
let edges = new Map(); // by draw
let held = null; // the draw that the pointer is on in the list
const view = { scale: 1, left: 0, top: 0 };
let fitted = null; // the size of the picture that the view was last fitted to
let question = 0, explaining = 0; // how many were asked

// ---- The server

async function json(path) {
  const answer = await fetch(path);
  if (!answer.ok) throw new Error(`${path}: ${answer.status}`);
  return answer.json();
}

const switchedOff = () => [...state.off[state.scene]].sort((a, b) => a - b).join(",");
const asked = () => `scene=${state.scene}&off=${switchedOff()}`;

async function loadScene() {
  facts = await json(`/scene.json?scene=${state.scene}`);
  edges = new Map();
  held = null;
  document.title = `${facts.name}: Wayramesh inspector`;
  document.body.classList.toggle("two", facts.names.length === 2);
  if (change === null && facts.names.length === 2) change = await json("/change.json");
  showScenes();
  showFacts();
  showChange();
  showDraws();
  fitNewSize();
  await loadPicture();
  const faulty = document.querySelector("#list .faulty");
  if (faulty) faulty.scrollIntoView({ block: "center" });
}

// The picture with the draws that are switched on, then the chosen pixel's story in it. An answer that another question has
// overtaken is dropped.
async function loadPicture() {
  const asking = ++question;
  const shown = facts.shown;
  const bytes = shown ? await pictureBytes() : null;
  if (asking !== question) return;
  pixels = bytes && bytes.length > 0 ? bytes : null;
  image = pixels && imageOf(pixels, shown.width, shown.height);
  showFault();
  paint();
  await Promise.all([loadEdges(), explain()]);
  paint();
}

async function pictureBytes() {
  const answer = await fetch(`/picture?${asked()}`);
  return new Uint8Array(await answer.arrayBuffer());
}

async function loadEdges() {
  const draws = facts.shown ? facts.shown.draws : [];
  const wanted = draws.map((_, i) => i).filter((i) => (state.edges && isOn(i)) || i === held);
  await Promise.all(wanted.filter((i) => !edges.has(i)).map(async (i) => {
    edges.set(i, await json(`/edges.json?scene=${state.scene}&draw=${i}`));
  }));
}

// Why the chosen pixel has its colour; without a picture, why there is none.
async function explain() {
  const asking = ++explaining;
  const shown = facts.shown;
  const isChosen = Boolean(shown) && state.x !== null && state.x < shown.width && state.y < shown.height;
  if (!shown || (!isChosen && pixels)) {
    byId("pixel").replaceChildren(element("p", { className: "hint" }, shown ? HINT : ""));
    return;
  }
  const [x, y] = isChosen ? [state.x, state.y] : [0, 0];
  const found = await json(`/pixel.json?${asked()}&x=${x}&y=${y}`);
  if (asking === explaining) showPixel(found);
}

// ---- Colours

const straight = ([r, g, b, a]) => a === 0 ? [0, 0, 0, 0] : [r, g, b].map((c) => Math.min(255, Math.round(c * 255 / a))).concat(a);
const overWhite = ([r, g, b, a]) => [r, g, b].map((c) => Math.min(255, c + 255 - a));

// An image whose top row is the picture's last.
function imageOf(bytes, width, height) {
  const whole = document.createElement("canvas");
  whole.width = width;
  whole.height = height;
  const data = new ImageData(width, height);
  for (let y = 0; y < height; y++) {
    for (let x = 0; x < width; x++) {
      const from = 4 * (y * width + x);
      data.data.set(straight(bytes.subarray(from, from + 4)), 4 * ((height - 1 - y) * width + x));
    }
  }
  whole.getContext("2d").putImageData(data, 0, 0);
  return whole;
}

// ---- Parts of the page

function element(name, properties, ...children) {
  const made = Object.assign(document.createElement(name), properties);
  made.append(...children);
  return made;
}

// A pixel over black and over white: the same twice where it is opaque.
function swatch(pixel) {
  const [r, g, b] = pixel;
  const colored = (color) => {
    const part = element("span", { className: "swatch" });
    part.style.background = `rgb(${color.join(",")})`;
    return part;
  };
  return element("span", { className: "swatches", title: "over black, over white" }, colored([r, g, b]), colored(overWhite(pixel)));
}

function paintSwatches(list) {
  if (list.length === 1) return swatch(list[0]);
  const run = element("span", { className: "swatches run", title: "along the diagonal of its box, over black" });
  for (const [r, g, b] of list) {
    const part = element("span", { className: "swatch" });
    part.style.background = `rgb(${r},${g},${b})`;
    run.append(part);
  }
  return run;
}

const numbers = ([r, g, b, a]) => `R ${r} G ${g} B ${b} A ${a}`;
const area = ([x, y, width, height]) =>
  width > 0 && height > 0 ? `columns ${x} to ${x + width - 1}, rows ${y} to ${y + height - 1}` : "empty";

function table(rows) {
  const list = element("dl", {});
  for (const [name, value] of rows) {
    if (value !== null) list.append(element("dt", {}, name), element("dd", {}, value));
  }
  return list;
}

function showScenes() {
  byId("scenes").replaceChildren(...facts.names.map((name, i) => {
    const button = element("button", { textContent: name, onclick: () => go(i) });
    button.setAttribute("aria-pressed", i === state.scene);
    return button;
  }));
}

function go(scene) {
  state.scene = scene;
  keep();
  loadScene();
}

function showFacts() {
  const shown = facts.shown;
  byId("facts").textContent = shown
    ? `${shown.width} by ${shown.height} pixels, edition ${shown.edition}, ${shown.draws.length} draws, ${facts.bytes} bytes`
    : `${facts.bytes} bytes`;
}

// A refused file: where it breaks which rule, its bytes there, and what is shown of it all the same.
function showFault() {
  const box = byId("fault"), fault = facts.refused;
  box.hidden = !fault;
  if (!fault) return;
  box.replaceChildren(element("strong", {}, `Refused: ${fault.code}, ${fault.words}`), faultTable(fault), ...bytesAround(fault.around),
    element("p", {}, salvageWords()));
}

const faultTable = (fault) => table([["where", fault.where], ["field", fault.field], ["value", fault.value], ["rule", fault.rule]]);

function salvageWords() {
  if (!facts.shown) return "No scene can be salvaged from it, so there is no picture.";
  const replaced = facts.shown.replaced;
  const list = replaced.map(({ draw, code, words }) => `draw ${draw} (${code}, ${words})`).join(", ");
  const salvaged = replaced.length ? `In the salvaged scene an empty draw stands for ${list}.` : "Each draw keeps the rules where a mask is lent.";
  if (!pixels) return `${salvaged} There is no picture yet: lend a mask with --mask, or switch off the draws that ask for one.`;
  return `${salvaged} The picture is that of ${replaced.length ? "the salvaged scene" : "the draws that are switched on"}.`;
}

// Rows of 16 bytes, the fault's first byte marked.
function bytesAround(around) {
  if (!around) return [];
  const rows = element("pre", { className: "bytes" });
  around.bytes.forEach((byte, i) => {
    const offset = around.from + i;
    if (i % 16 === 0) rows.append(`${i ? "\n" : ""}${String(offset).padStart(6)} `);
    const text = byte.toString(16).padStart(2, "0");
    rows.append(" ", offset === around.marked ? element("mark", { title: `byte ${offset}` }, text) : text);
  });
  return [rows];
}

function showChange() {
  const box = byId("change");
  box.hidden = facts.names.length < 2;
  if (box.hidden) return;
  const rows = !change ? [["redraw", "none, as one of the two cannot be shown"]] : change.refused ? [["redraw", change.refused]] : [
    ["redrawn", area(change.area)],
    ["planned", change.planned.map(area).join("; ") || "nothing"],
    ["differing", change.around ? `${change.differing} pixels, within ${area(change.around)}` : "no pixel"],
  ];
  box.replaceChildren(element("strong", {}, `From ${facts.names[0]} to ${facts.names[1]}`), table(rows));
}

const isOn = (draw) => !state.off[state.scene].has(draw);

function showDraws() {
  const draws = facts.shown ? facts.shown.draws : [];
  byId("list").replaceChildren(...draws.map(drawItem));
}

function drawItem(draw, i) {
  const box = element("input", { type: "checkbox", checked: isOn(i), onchange: () => turn([i], box.checked) });
  const name = element("label", {}, box, element("span", { className: "number" }, String(i)), paintSwatches(draw.swatches), draw.paint);
  const words = [draw.blend, draw.spread, draw.rule, `${draw.segments} segments, ${draw.edges} edges`];
  if (draw.scissors) words.push(`${draw.scissors.length} scissors`);
  if (draw.masked) words.push("mask");
  if (draw.transformed) words.push("colour transformation");
  const replaced = facts.shown.replaced.some((known) => known.draw === i);
  const faulty = replaced || Boolean(facts.refused && facts.refused.draw === i);
  const where = replaced ? "salvaged: an empty draw in its place" : draw.box ? area(draw.box) : "no pixel in its box";
  const item = element("li", {}, name, element("small", {}, words.filter(Boolean).join(", ")), element("small", {}, where));
  item.classList.toggle("off", !isOn(i));
  item.classList.toggle("faulty", faulty);
  item.onpointerenter = () => hold(i);
  item.onpointerleave = () => hold(null);
  return item;
}

async function hold(draw) {
  held = draw;
  await loadEdges();
  paint();
}

function turn(draws, on) {
  const off = state.off[state.scene];
  for (const draw of draws) on ? off.delete(draw) : off.add(draw);
  keep();
  showDraws();
  loadPicture();
}

// ---- A pixel

function showPixel(found) {
  const place = byId("pixel");
  if (found.refused) {
    const { code, words, draw, rule } = found.refused;
    place.replaceChildren(element("p", {}, `No picture: ${draw === null ? "" : `draw ${draw}, `}code ${code}, ${words}: ${rule}.`));
    return;
  }
  const steps = element("table", {});
  steps.append(step("", "background", found.background, ""));
  found.lines.forEach((line, i) => {
    if (line.kind === "covered") steps.append(...coveringRows(line, i));
  });
  steps.append(step("", "the pixel", found.last, ""));
  const text = element("details", {}, element("summary", {}, "In words, with samples and scissors"), element("pre", {}, found.story));
  place.replaceChildren(element("h2", {}, `Pixel (${found.x}, ${found.y})`), steps, element("p", { className: "hint" }, others(found.lines)), text);
}

function step(number, name, pixel, more) {
  const row = element("tr", { className: "step" }, element("td", {}, number), element("td", {}, name), element("td", {}, swatch(pixel)),
    element("td", {}, numbers(pixel), more));
  return row;
}

// A draw that covers the pixel: its paint, how it is blended, and what it leaves.
function coveringRows(line, i) {
  const draw = facts.shown.draws[i];
  const mask = line.mask === null ? "" : `, mask ${line.mask} of 255`;
  const how = element("tr", { className: "still" }, element("td", {}), element("td", {}, "by"),
    element("td", { colSpan: 2 }, `${draw.blend}, ${line.coverage} of 16 samples${mask}`));
  const after = element("tr", {}, element("td", {}), element("td", {}, "after"), element("td", {}, swatch(line.after)),
    element("td", {}, numbers(line.after)));
  return [step(String(i), draw.paint, line.paint, ""), how, after];
}

// Numbers in order, three or more that follow each other by the first and the last.
function runs(list) {
  const found = [];
  for (const number of list) {
    const last = found[found.length - 1];
    if (last && last[1] === number - 1) last[1] = number; else found.push([number, number]);
  }
  return found.flatMap(([from, to]) => to > from + 1 ? [`${from} to ${to}`] : from === to ? [from] : [from, to]).join(", ");
}

// The draws that leave the pixel as it is.
function others(lines) {
  const named = (kind) => lines.map((line, i) => line.kind === kind && isOn(i) ? i : null).filter((i) => i !== null);
  const words = [];
  const said = (list, what) => { if (list.length) words.push(`${list.length === 1 ? "Draw" : "Draws"} ${runs(list)}: ${what}.`); };
  said(named("uncovered"), "no sample is inside");
  said(named("outside"), "outside the scissors");
  said([...state.off[state.scene]].sort((a, b) => a - b), "switched off");
  return words.join(" ");
}

async function pick(x, y) {
  const shown = facts.shown;
  if (!shown || x < 0 || y < 0 || x >= shown.width || y >= shown.height) return;
  state.x = x;
  state.y = y;
  keep();
  paint();
  await explain();
}

// ---- The picture on the screen

const ratio = () => window.devicePixelRatio || 1;

function fit() {
  const shown = facts && facts.shown;
  if (!shown) return;
  const room = Math.min((canvas.clientWidth - 24) / shown.width, (canvas.clientHeight - 24) / shown.height);
  view.scale = Math.min(MOST_ZOOM, room > 1 ? Math.floor(room) : room);
  center();
}

// A picture of another size than the last is fitted; else the view stays.
function fitNewSize() {
  const size = facts.shown ? `${facts.shown.width} ${facts.shown.height}` : fitted;
  if (size !== fitted) fit();
  fitted = size;
}

function center() {
  view.left = Math.round((canvas.clientWidth - view.scale * facts.shown.width) / 2);
  view.top = Math.round((canvas.clientHeight - view.scale * facts.shown.height) / 2);
}

// Zooms so that the point under the pointer stays.
function zoom(factor, x, y) {
  const before = view.scale;
  let scale = Math.max(1 / 16, Math.min(MOST_ZOOM, before * factor));
  if (scale >= 1) scale = factor > 1 ? Math.ceil(scale) : Math.floor(scale);
  scale = Math.min(MOST_ZOOM, scale);
  view.left = Math.round(x - (x - view.left) * scale / before);
  view.top = Math.round(y - (y - view.top) * scale / before);
  view.scale = scale;
  keep();
  paint();
}

function zoomTo(scale, x, y) {
  view.scale = scale;
  view.left = Math.round(canvas.clientWidth / 2 - scale * (x + 0.5));
  view.top = Math.round(canvas.clientHeight / 2 - scale * (facts.shown.height - y - 0.5));
}

const across = (x) => view.left + view.scale * x;
const down = (y) => view.top + view.scale * (facts.shown.height - y);

function pixelUnder(event) {
  const x = Math.floor((event.offsetX - view.left) / view.scale);
  const y = facts.shown ? facts.shown.height - 1 - Math.floor((event.offsetY - view.top) / view.scale) : -1;
  return [x, y];
}

function paint() {
  canvas.width = Math.round(canvas.clientWidth * ratio());
  canvas.height = Math.round(canvas.clientHeight * ratio());
  pen.setTransform(ratio(), 0, 0, ratio(), 0, 0);
  byId("zoom").textContent = view.scale >= 1 ? `${view.scale}×` : `${Math.round(100 * view.scale)} %`;
  if (!facts || !facts.shown) return;
  const { width, height, draws } = facts.shown;
  if (image) paintImage(Math.round(view.scale * width), Math.round(view.scale * height));
  else outline([0, 0, width, height], "#555b68", 1);
  if (view.scale >= GRID_FROM) paintGrid(width, height);
  draws.forEach((draw, i) => paintDraw(draw, i));
  if (state.area && change && change.area) paintArea(change.area, "#ffd23f");
  if (state.planned && change && change.planned) change.planned.forEach((rectangle) => paintArea(rectangle, "#4fd8e0"));
  if (state.x !== null) outline([state.x, state.y, 1, 1], "#fff", 3), outline([state.x, state.y, 1, 1], "#000", 1);
}

function paintImage(width, height) {
  paintChecks(view.left, view.top, width, height);
  pen.imageSmoothingEnabled = view.scale < 1;
  pen.drawImage(image, view.left, view.top, width, height);
}

// A pattern that shows through where the picture is transparent.
function paintChecks(left, top, width, height) {
  pen.save();
  pen.beginPath();
  pen.rect(left, top, width, height);
  pen.clip();
  pen.fillStyle = "#fff";
  pen.fillRect(left, top, width, height);
  pen.fillStyle = "#ccc";
  const size = 8, right = Math.min(left + width, canvas.clientWidth), bottom = Math.min(top + height, canvas.clientHeight);
  for (let y = Math.max(top, 0), row = 0; y < bottom; y += size, row++) {
    for (let x = Math.max(left, 0) + size * (row % 2); x < right; x += 2 * size) pen.fillRect(x, y, size, size);
  }
  pen.restore();
}

function paintGrid(width, height) {
  pen.strokeStyle = "rgba(128,128,128,.35)";
  pen.lineWidth = 1;
  pen.beginPath();
  for (let x = 0; x <= width; x++) pen.moveTo(across(x) + .5, down(0)), pen.lineTo(across(x) + .5, down(height));
  for (let y = 0; y <= height; y++) pen.moveTo(across(0), down(y) + .5), pen.lineTo(across(width), down(y) + .5);
  pen.stroke();
}

// The outline of pixels.
function outline([x, y, width, height], color, thickness) {
  pen.strokeStyle = color;
  pen.lineWidth = thickness;
  pen.strokeRect(across(x), down(y + height), view.scale * width, view.scale * height);
}

const colorOf = (draw) => `hsl(${(draw * 137) % 360} 90% 62%)`;

function paintDraw(draw, i) {
  const isHeld = i === held;
  if (!isHeld && !isOn(i)) return;
  if (draw.box && (state.boxes || isHeld)) {
    outline(draw.box, colorOf(i), isHeld ? 3 : 1.5);
    pen.fillStyle = colorOf(i);
    pen.font = "11px system-ui, sans-serif";
    pen.fillText(String(i), across(draw.box[0]) + 2, down(draw.box[1] + draw.box[3]) - 3);
  }
  if ((state.edges || isHeld) && edges.has(i)) paintEdges(edges.get(i), colorOf(i), isHeld ? 2.5 : 1.2);
}

function paintEdges(list, color, thickness) {
  pen.strokeStyle = color;
  pen.lineWidth = thickness;
  pen.beginPath();
  for (let i = 0; i < list.length; i += 4) {
    pen.moveTo(across(list[i] / UNITS), down(list[i + 1] / UNITS));
    pen.lineTo(across(list[i + 2] / UNITS), down(list[i + 3] / UNITS));
  }
  pen.stroke();
}

// Pixels that are redrawn. Where single pixels are looked at, their colours stay.
function paintArea([x, y, width, height], color) {
  if (width === 0) return;
  if (view.scale < GRID_FROM) {
    pen.fillStyle = `${color}2e`;
    pen.fillRect(across(x), down(y + height), view.scale * width, view.scale * height);
  }
  outline([x, y, width, height], color, 2);
}

// ---- The address

function keep() {
  const parts = [`scene=${state.scene}`];
  if (state.x !== null) parts.push(`x=${state.x}`, `y=${state.y}`);
  if (state.x !== null && view.scale >= 1) parts.push(`zoom=${view.scale}`);
  if (switchedOff()) parts.push(`off=${switchedOff()}`);
  for (const name of LAYERS) if (state[name]) parts.push(name);
  history.replaceState(null, "", `#${parts.join("&")}`);
}

function restore() {
  const kept = new URLSearchParams(location.hash.slice(1));
  const number = (name) => /^\d{1,4}$/.test(kept.get(name) || "") ? Number(kept.get(name)) : null;
  state.scene = number("scene") === 1 ? 1 : 0;
  if (number("x") !== null && number("y") !== null) [state.x, state.y] = [number("x"), number("y")];
  for (const draw of (kept.get("off") || "").split(",")) if (/^\d{1,2}$/.test(draw)) state.off[state.scene].add(Number(draw));
  for (const name of LAYERS) byId(name).checked = state[name] = kept.has(name);
  return number("zoom");
}

// ---- What the user does

let drag = null;

canvas.onpointerdown = (event) => {
  drag = { x: event.clientX, y: event.clientY, left: view.left, top: view.top, moved: false };
  canvas.setPointerCapture(event.pointerId);
};
canvas.onpointermove = (event) => {
  showUnder(event);
  if (!drag) return;
  const [dx, dy] = [event.clientX - drag.x, event.clientY - drag.y];
  if (!drag.moved && Math.hypot(dx, dy) < 4) return;
  drag.moved = true;
  view.left = drag.left + dx;
  view.top = drag.top + dy;
  paint();
};
canvas.onpointerup = (event) => {
  if (drag && !drag.moved) pick(...pixelUnder(event));
  drag = null;
};
canvas.onpointerleave = () => { byId("under").textContent = ""; };
canvas.onwheel = (event) => {
  event.preventDefault();
  if (facts && facts.shown) zoom(event.deltaY < 0 ? 1.25 : 0.8, event.offsetX, event.offsetY);
};
canvas.onkeydown = (event) => {
  const steps = { ArrowLeft: [-1, 0], ArrowRight: [1, 0], ArrowUp: [0, 1], ArrowDown: [0, -1] };
  const step = steps[event.key];
  if (!step || state.x === null) return;
  event.preventDefault();
  pick(state.x + step[0], state.y + step[1]);
};

function showUnder(event) {
  const [x, y] = pixelUnder(event);
  const shown = facts && facts.shown;
  const inside = pixels && x >= 0 && y >= 0 && x < shown.width && y < shown.height;
  const from = inside ? 4 * (y * shown.width + x) : 0;
  byId("under").textContent = inside ? `(${x}, ${y})  ${numbers(pixels.subarray(from, from + 4))}` : "";
}

for (const name of LAYERS) {
  byId(name).onchange = async (event) => {
    state[name] = event.target.checked;
    keep();
    await loadEdges();
    paint();
  };
}
const zoomMiddle = (factor) => zoom(factor, canvas.clientWidth / 2, canvas.clientHeight / 2);
byId("in").onclick = () => zoomMiddle(1.25);
byId("out").onclick = () => zoomMiddle(0.8);
byId("fit").onclick = () => { fit(); keep(); paint(); };
const allDraws = () => facts.shown ? facts.shown.draws.map((_, i) => i) : [];
byId("all").onclick = () => turn(allDraws(), true);
byId("none").onclick = () => turn(allDraws(), false);
window.onresize = () => paint();

async function start() {
  const scale = restore();
  await loadScene();
  if (scale && state.x !== null && facts.shown) zoomTo(Math.min(MOST_ZOOM, scale), state.x, state.y);
  paint();
}

start();
