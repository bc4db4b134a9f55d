// The page: one WebSocket to the server, and the parts that show what comes over it.
import { applied } from "./delta.js";
import { colour, Editor } from "./editor.js";
import { History } from "./history.js";
import { Sync } from "./sync.js";

const RETRY = 1000; // milliseconds between two attempts to reach the server
const SEEN = 100; // deltas after which the server is told that they have come

const at = (id) => document.getElementById(id);
const state = { number: null, people: [], cursors: [], operations: 0, socket: null, gone: false, seen: 0 };
const past = { wanted: null, asked: false, text: null, position: null };
let waiting = []; // what came while an input method composed a character: to put another text into the area would end that
let sync = new Sync(sendEdit);

const editor = new Editor(at("paper"), { edited, pointed: sendCursor });
editor.composed = () => waiting.splice(0).forEach(take);
const history = new History(at("entries"), at("older"), {
  name: nameOf,
  turn: (kind, entry) => send({ kind, entry }),
  more: (before) => send({ kind: "more", before }),
  see: (position) => look(position),
});

// ---- to the server

function connect() {
  const socket = new WebSocket(`ws://${location.host}/pad`);
  state.socket = socket;
  socket.addEventListener("open", () => send({ kind: "open", token: location.hash.slice(1) || null }));
  socket.addEventListener("message", ({ data }) => {
    if (socket === state.socket) take(JSON.parse(data));
  });
  socket.addEventListener("close", () => {
    if (socket !== state.socket || state.refused) return;
    editor.area.readOnly = true;
    if (!state.gone) notice("The server is gone. What was typed last may be lost. Trying again …");
    state.gone = true;
    setTimeout(connect, RETRY);
  });
}

// Begins anew with the text that the server has.
function reopen() {
  const socket = state.socket;
  editor.area.readOnly = true;
  connect();
  socket.close();
}

function send(message) {
  if (state.socket.readyState === WebSocket.OPEN) state.socket.send(JSON.stringify(message));
}

function edited(delta) {
  sync.local(delta);
  showCursors();
}

function sendEdit(delta, version) {
  send({ kind: "edit", version, delta, cursor: editor.selection[1] });
}

// The caret goes with an edit; alone it is told when no edit is on its way, since the server doesn't know the text before.
function sendCursor(place) {
  if (editor.area.readOnly) return;
  if (sync.quiet) send({ kind: "cursor", version: sync.version, place });
  else state.pointed = true;
}

// ---- from the server

const TAKERS = { welcome, delta, taken, entries, around, past: earlier, refused };

function take(message) {
  if (editor.composing && message.kind !== "welcome") waiting.push(message);
  else TAKERS[message.kind](message);
}

function welcome({ number, token, text, people, entries, operations, undone }) {
  location.replace(`#${token}`);
  if (state.gone) notice(null);
  Object.assign(state, { number, people, gone: false, cursors: [], seen: 0 });
  Object.assign(past, { wanted: null, asked: false, text: null, position: null });
  sync = new Sync(sendEdit);
  waiting = [];
  editor.area.readOnly = false;
  editor.area.hidden = false;
  editor.earlier = null;
  editor.load(number, text);
  document.body.className = colour(number);
  history.load(entries);
  counted(operations, undone);
  showPeople();
}

function delta({ delta }) {
  editor.change(sync.remote(delta));
  if (sync.version - state.seen >= SEEN && sync.quiet) {
    send({ kind: "seen", version: sync.version });
    state.seen = sync.version;
  }
  showCursorsSoon();
}

function taken() {
  sync.taken();
  if (sync.quiet && state.pointed) {
    state.pointed = false;
    sendCursor(editor.selection[1]);
  }
  showCursorsSoon();
  askPast();
}

function entries({ entries, operations, undone, older }) {
  history.show(entries, older);
  counted(operations, undone);
}

function around({ people, cursors }) {
  Object.assign(state, { people, cursors });
  showPeople();
  showCursors();
}

function refused({ why, of }) {
  if (of === "open") {
    state.refused = true;
    notice(`${why[0].toUpperCase()}${why.slice(1)}.`, "Open a new person");
    return;
  }
  notice(`The server refused it: ${why}.`, null, 6000);
  if (of === "edit") reopen();
  if (of === "past") {
    past.asked = false;
    now();
  }
}

// ---- people

function nameOf(number) {
  return state.people.find((it) => it.number === number)?.name ?? `Person ${number}`;
}

function showPeople() {
  const me = state.people.find((it) => it.number === state.number);
  at("people").replaceChildren(...state.people.map(personLine));
  at("away").checked = Boolean(me?.away);
  document.title = me ? `${me.name}: pad` : "pad";
  document.body.classList.toggle("is-away", Boolean(me?.away));
  at("held").textContent = me?.away ? `You are away: ${some(me.from, "operation")} of yours and ${me.to} of others are held back.` : "";
  at("trouble").textContent = me?.trouble ? `Not saved, and so not sent to others (${me.trouble}). It is tried again each second.` : "";
}

const some = (number, what) => `${number} ${what}${number === 1 ? "" : "s"}`;

function personLine(person) {
  const line = document.createElement("li");
  line.className = `person ${colour(person.number)}${person.here ? "" : " gone"}${person.away ? " away" : ""}`;
  line.dataset.number = person.number;
  line.textContent = person.name + (person.number === state.number ? " (you)" : "");
  if (person.away) line.append(Object.assign(document.createElement("small"), { textContent: " away" }));
  line.title = person.here ? (person.away ? "here, and away: nothing comes or goes" : "here") : "no tab is open";
  return line;
}

function showCursors() {
  const others = state.cursors.map((it) => ({ ...it, place: sync.here(it.place), name: nameOf(it.number), away: isAway(it.number) }));
  editor.showCursors(others);
}

// After a change the server says where cursors stand now, if that is elsewhere: so they aren't drawn at once.
function showCursorsSoon() {
  clearTimeout(state.drawing);
  state.drawing = setTimeout(showCursors);
}

const isAway = (number) => state.people.some((it) => it.number === number && it.away);

at("away").addEventListener("change", ({ target }) => send({ kind: "away", on: target.checked }));

// ---- earlier moments

function counted(operations, undone) {
  state.operations = operations;
  at("undone").textContent = undone > 500 ? `${undone} inserts and deletes were undone of the 1,000 that may be: each makes the document grow.` : "";
  showSlider();
}

function showSlider() {
  const slider = at("moment");
  slider.max = state.operations;
  slider.value = past.wanted ?? state.operations;
  at("now").hidden = past.wanted === null;
  at("when").textContent = past.wanted === null ? `now: ${some(state.operations, "operation")}` : `${past.wanted} of ${state.operations}`;
  document.body.classList.toggle("is-past", past.wanted !== null);
}

function look(position) {
  if (position === state.operations) return now();
  past.wanted = position;
  editor.area.readOnly = true;
  showSlider();
  askPast();
}

// One question is on its way at a time, and the last one that was wanted follows it. What the tab shows has to be what the server has
// sent, so edits on their way are waited for.
function askPast() {
  if (past.wanted === null || past.asked || !sync.quiet || past.position === past.wanted) return;
  past.asked = true;
  send({ kind: "past", position: past.wanted });
}

function earlier({ position, since, delta }) {
  past.asked = false;
  past.text = applied(delta, since === "now" ? editor.text : past.text);
  past.position = position;
  if (past.wanted === null) now();
  else editor.showEarlier(past.text);
  askPast();
}

function now() {
  past.wanted = null;
  if (!past.asked) {
    send({ kind: "now" });
    Object.assign(past, { text: null, position: null });
    editor.area.readOnly = false;
    editor.showEarlier(null);
  }
  showSlider();
}

at("moment").addEventListener("input", ({ target }) => look(Number(target.value)));
at("now").addEventListener("click", now);

// ---- keys

// The browser's own undo would put back a text that others have changed since.
editor.area.addEventListener("keydown", (event) => {
  if (!(event.ctrlKey || event.metaKey) || event.altKey) return;
  const key = event.key.toLowerCase();
  if (key !== "z" && key !== "y") return;
  event.preventDefault();
  send({ kind: key === "y" || event.shiftKey ? "forth" : "back" });
});
editor.area.addEventListener("beforeinput", (event) => {
  if (event.inputType !== "historyUndo" && event.inputType !== "historyRedo") return;
  event.preventDefault();
  send({ kind: event.inputType === "historyUndo" ? "back" : "forth" });
});

// ---- notices

let fading = null;

function notice(text, link = null, time = null) {
  const box = at("notice");
  clearTimeout(fading);
  box.hidden = text === null;
  box.textContent = text ?? "";
  if (link) box.append(" ", Object.assign(document.createElement("a"), { href: "/", textContent: link }));
  if (time) fading = setTimeout(() => notice(null), time);
}

// What tests look at.
window.pad = {
  get quiet() {
    return state.number !== null && !state.gone && sync.quiet && !past.asked;
  },
  get shown() {
    return editor.value;
  },
  get earlier() {
    return past.text && past.text.characters.join("");
  },
};

connect();
