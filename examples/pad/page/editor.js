// A text area whose characters have their authors' colours, with the cursors of other people.
//
// The text area itself has transparent letters. A mirror below it shows the same text in colours; both have the same width and font, and
// grow with the text, so that nothing scrolls but the box around them.
import { applied, changes, characters, count, moved, runs, typed } from "./delta.js";

const COLOURS = 8;
export const colour = (number) => `author-${number % COLOURS}`;

// The end of a mirror: it has a width of nothing, and makes a last line that is empty stand there.
const END = "\u200b";

// Half of a surrogate pair: no character.
const HALF = /[\ud800-\udbff](?![\udc00-\udfff])|(?<![\ud800-\udbff])[\udc00-\udfff]/g;

export class Editor {
  // `box` is the element to fill; `edited` is told each delta of the user, and `pointed` that the caret moved.
  constructor(box, { edited, pointed }) {
    this.edited = edited;
    this.pointed = pointed;
    this.text = { characters: [], authors: [] };
    this.earlier = null;
    this.others = [];
    this.mirror = made(box, "div", "mirror");
    this.cursors = made(box, "div", "cursors");
    this.area = made(box, "textarea", "area");
    for (const it of [this.mirror, this.cursors]) it.setAttribute("aria-hidden", "true");
    this.area.setAttribute("aria-label", "The text");
    Object.assign(this.area, { id: "text", spellcheck: false, autocomplete: "off", readOnly: true });
    this.area.addEventListener("input", () => this.read());
    this.area.addEventListener("compositionstart", () => (this.composing = true));
    this.area.addEventListener("compositionend", () => {
      this.composing = false;
      this.read();
      this.composed?.();
    });
    document.addEventListener("selectionchange", () => this.point());
    for (const kind of ["keyup", "mouseup", "focus"]) this.area.addEventListener(kind, () => this.point());
    new ResizeObserver(() => this.placeCursors()).observe(this.mirror);
    this.composing = false;
  }

  load(number, parts) {
    this.number = number;
    this.text = applied(parts, { characters: [], authors: [] });
    this.area.value = this.value;
    this.caret = null;
    this.draw();
    this.placeCursors();
  }

  get value() {
    return this.text.characters.join("");
  }

  // How many characters stand before the caret, and before the end of what is selected.
  get selection() {
    const { value, selectionStart, selectionEnd } = this.area;
    return [count(value.slice(0, selectionStart)), count(value.slice(0, selectionEnd))];
  }

  // Reads what the user did to the text area.
  read() {
    const whole = this.area.value.replace(HALF, "\ufffd");
    if (whole !== this.area.value) this.area.value = whole;
    const after = characters(whole), caret = count(whole.slice(0, this.area.selectionEnd));
    const delta = typed(this.text.characters, after, this.number, caret);
    if (changes(delta)) {
      this.text = applied(delta, this.text);
      this.caret = caret;
      this.draw();
      this.edited(delta);
    }
  }

  // Does what came from others, and leaves the caret and what is selected where it was.
  change(delta) {
    const [start, end] = this.selection, direction = this.area.selectionDirection;
    this.text = applied(delta, this.text);
    const at = [moved(start, delta, start < end), moved(end, delta)].map((it) => this.units(it));
    this.area.value = this.value;
    this.area.setSelectionRange(...at, direction);
    this.caret = this.selection[1];
    this.draw();
  }

  // Where a place stands in the UTF-16 units of the text area.
  units(place) {
    return this.text.characters.slice(0, place).join("").length;
  }

  point() {
    if (document.activeElement !== this.area || this.composing) return;
    const caret = this.selection[1];
    if (caret !== this.caret) {
      this.caret = caret;
      this.pointed(caret);
    }
  }

  // Shows an earlier text, which can't be edited, or with null that of now.
  showEarlier(text) {
    this.earlier = text;
    this.area.hidden = text !== null;
    this.draw();
    this.placeCursors();
  }

  draw() {
    const shown = this.earlier ?? this.text;
    const spans = runs(shown).map(([author, text]) => {
      const span = document.createElement("span");
      span.className = colour(author);
      span.textContent = text;
      return span;
    });
    this.mirror.replaceChildren(...spans, END);
  }

  // `others` are the people whose cursors are shown: number, name, place, and whether they are away.
  showCursors(others) {
    this.others = others;
    this.placeCursors();
  }

  placeCursors() {
    const bars = (this.earlier === null ? this.others : []).map((it) => {
      const bar = document.createElement("div"), flag = document.createElement("span");
      const { left, top, height } = this.spot(it.place);
      bar.className = `cursor ${colour(it.number)}${it.away ? " away" : ""}${top < 8 ? " low" : ""}`;
      bar.dataset.number = it.number;
      bar.dataset.place = it.place;
      Object.assign(bar.style, { left: `${left}px`, top: `${top}px`, height: `${height}px` });
      flag.textContent = it.name;
      bar.append(flag);
      return bar;
    });
    this.cursors.replaceChildren(...bars);
  }

  // Where a cursor at this place stands in the mirror: behind the character on its left, or at the beginning of a line.
  spot(place) {
    const left = this.text.characters[place - 1];
    const behind = place > 0 && left !== "\n";
    const rect = this.rect(behind ? place - 1 : place), box = this.mirror.getBoundingClientRect();
    return { left: (behind ? rect.right : rect.left) - box.left, top: rect.top - box.top, height: rect.height };
  }

  // The rectangle of the character at a place of the mirror; at the end that of END.
  rect(place) {
    const range = document.createRange();
    let before = 0;
    for (const node of this.mirror.childNodes) {
      const text = node.firstChild ?? node, all = characters(text.data);
      if (place < before + all.length) {
        const from = all.slice(0, place - before).join("").length;
        range.setStart(text, from);
        range.setEnd(text, from + all[place - before].length);
        const rects = range.getClientRects();
        return rects[rects.length - 1] ?? range.getBoundingClientRect();
      }
      before += all.length;
    }
    range.selectNodeContents(this.mirror);
    return range.getBoundingClientRect();
  }
}

function made(box, tag, name) {
  const element = document.createElement(tag);
  element.className = name;
  box.append(element);
  return element;
}
