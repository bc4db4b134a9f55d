// The list of what was done, newest first, with a button on each entry that undoes or redoes it.
import { colour } from "./editor.js";

const SAID = { insert: "wrote", delete: "deleted", undo: "undid", redo: "redid" };

export class History {
  // `turn` is called with "undo" or "redo" and the number of an entry; `more` with the number of the oldest one that is shown; `see`
  // with the moment right after an entry.
  constructor(list, older, { name, turn, more, see }) {
    Object.assign(this, { list, older, name, turn, more, see });
    this.lines = new Map();
    this.oldest = 0;
    older.addEventListener("click", () => this.more(this.oldest));
  }

  load(entries) {
    this.lines.clear();
    this.list.replaceChildren();
    this.oldest = entries.length ? entries[0].id : 0;
    this.show(entries);
  }

  // Shows entries that are new or have changed; with `older`, those before the oldest one.
  show(entries, older = false) {
    if (older && entries.length) this.oldest = entries[0].id;
    for (const entry of entries) if (entry.id >= this.oldest) this.showOne(entry);
    this.older.hidden = this.oldest === 0;
  }

  showOne(entry) {
    const line = this.line(entry), old = this.lines.get(entry.id);
    this.lines.set(entry.id, line);
    if (old) {
      old.replaceWith(line);
      return;
    }
    const next = [...this.list.children].find((it) => Number(it.dataset.id) < entry.id);
    this.list.insertBefore(line, next ?? null);
  }

  line(entry) {
    const line = document.createElement("li"), said = document.createElement("p");
    line.className = `entry ${colour(entry.author)} ${entry.state.replace(" ", "-")}`;
    Object.assign(line.dataset, { id: entry.id, kind: entry.kind, author: entry.author, state: entry.state });
    said.append(part("b", this.name(entry.author)), ` ${SAID[entry.kind]} `);
    if (entry.of) said.append(this.whose(entry), " ");
    said.append(part("q", legible(entry.text)));
    if (entry.state === "in part") said.append(part("i", " (in part)"));
    said.title = "shows the text right after this";
    said.addEventListener("click", () => this.see(entry.position));
    line.append(said);
    const turn = turnOf(entry);
    if (turn) {
      const button = part("button", turn);
      button.type = "button";
      button.addEventListener("click", () => this.turn(turn, entry.id));
      line.append(button);
    }
    return line;
  }

  whose({ author, of }) {
    const name = of.author === author ? "their own" : `${this.name(of.author)}’s`;
    return of.kind === "delete" ? `${name} delete of` : name;
  }
}

// What the button of an entry does: it turns what is in force, or brings it back. An undo or redo that was turned since has none.
function turnOf({ kind, state, of }) {
  if (!of) return state === "undone" ? "redo" : "undo";
  if (state === "undone") return null;
  return kind === "undo" ? "redo" : "undo";
}

function part(tag, text) {
  const element = document.createElement(tag);
  element.textContent = text;
  return element;
}

const legible = (text) => text.replaceAll("\n", "⏎").replaceAll("\t", "⇥").replaceAll(" ", "\u00a0");
