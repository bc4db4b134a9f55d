// Deltas: what an edit changes of a text. The rules are those of server/delta.py, so that both sides agree.
//
// A delta goes over a whole text. It is a list of parts: a number above 0 keeps as many characters, one below 0 removes as many, and a
// pair [author, text] inserts. Characters are code points: `characters` cuts a string of UTF-16 units into them.

export const characters = (text) => Array.from(text);
export const count = (text) => characters(text).length;

const inserts = (part) => Array.isArray(part);
export const size = (part) => (inserts(part) ? count(part[1]) : Math.abs(part));

// Gathers parts into the one form that a delta has: neighbours of a kind are joined, and what is inserted at a place stands before what
// is removed there.
export class Writer {
  parts = [];

  number(n) {
    const last = this.parts.at(-1);
    if (n && this.parts.length && !inserts(last) && last > 0 === n > 0) this.parts[this.parts.length - 1] += n;
    else if (n) this.parts.push(n);
  }

  insert(author, text) {
    if (!text) return;
    const removed = !inserts(this.parts.at(-1)) && this.parts.at(-1) < 0 ? this.parts.pop() : 0;
    const last = this.parts.at(-1);
    if (inserts(last) && last[0] === author) this.parts[this.parts.length - 1] = [author, last[1] + text];
    else this.parts.push([author, text]);
    this.number(removed);
  }

  add(part) {
    if (inserts(part)) this.insert(...part);
    else this.number(part);
  }
}

// Goes through the parts of a delta, as many characters at a time as are wanted.
class Reader {
  constructor(delta) {
    this.rest = [...delta].reverse();
  }

  get part() {
    return this.rest.at(-1) ?? 0;
  }

  take(n) {
    const part = this.rest.pop();
    if (part === undefined) throw new Error("two deltas of texts that aren't equally long");
    if (n >= size(part)) return part;
    if (inserts(part)) {
      const all = characters(part[1]);
      this.rest.push([part[0], all.slice(n).join("")]);
      return [part[0], all.slice(0, n).join("")];
    }
    this.rest.push(part > 0 ? part - n : part + n);
    return part > 0 ? n : -n;
  }

  all() {
    return this.rest.pop();
  }
}

const more = (reader) => reader.part !== 0;

export const lengthBefore = (delta) => delta.reduce((sum, part) => sum + (inserts(part) ? 0 : Math.abs(part)), 0);
export const lengthAfter = (delta) => delta.reduce((sum, part) => sum + (inserts(part) || part > 0 ? size(part) : 0), 0);

// The text after a delta. A text is two lists: its characters, and their authors.
export function applied(delta, text) {
  const after = { characters: [], authors: [] };
  let at = 0;
  for (const part of delta) {
    if (inserts(part)) {
      for (const it of characters(part[1])) {
        after.characters.push(it);
        after.authors.push(part[0]);
      }
    } else {
      for (let index = at; index < at + part; index++) {
        after.characters.push(text.characters[index]);
        after.authors.push(text.authors[index]);
      }
      at += Math.abs(part);
    }
  }
  if (at !== text.characters.length) throw new Error(`a delta of ${at} characters for a text of ${text.characters.length}`);
  return after;
}

// The delta that does what the first one does, and then the second.
export function composed(first, second) {
  const one = new Reader(first), two = new Reader(second), writer = new Writer();
  while (more(one) || more(two)) {
    if (!inserts(one.part) && one.part < 0) writer.add(one.all());
    else if (inserts(two.part)) writer.add(two.all());
    else {
      const n = Math.min(size(one.part), size(two.part));
      const made = one.take(n), done = two.take(n);
      if (done > 0) writer.add(made);
      else if (!inserts(made)) writer.number(-n);
    }
  }
  return writer.parts;
}

// What becomes of two deltas of one text: mine after the other, and the other after mine. Where both insert at one place, what mine
// inserts comes first.
export function crossed(mine, other) {
  const one = new Reader(mine), two = new Reader(other), first = new Writer(), second = new Writer();
  while (more(one) || more(two)) {
    if (inserts(one.part)) {
      second.number(size(one.part));
      first.add(one.all());
    } else if (inserts(two.part)) {
      first.number(size(two.part));
      second.add(two.all());
    } else {
      const n = Math.min(size(one.part), size(two.part));
      const a = one.take(n), b = two.take(n);
      if (b > 0) first.add(a);
      if (a > 0) second.add(b);
    }
  }
  return [first.parts, second.parts];
}

// Where a cursor stands after a delta. It stays behind the character on its left, so what is inserted at it comes after it; or, with
// `right`, before the one on its right.
export function moved(place, delta, right = false) {
  let at = 0, after = 0;
  for (const part of delta) {
    if (inserts(part)) {
      if (at > place || (at === place && !right)) break;
      after += size(part);
    } else {
      const n = Math.min(Math.abs(part), place - at);
      at += n;
      if (part > 0) after += n;
      if (Math.abs(part) > n) break;
    }
  }
  return after;
}

// The delta from one list of characters to another, which was typed by this author: one piece, which ends at the caret, since where
// letters repeat the texts alone don't tell which of them came or went.
export function typed(before, after, author, caret) {
  const most = Math.min(before.length, after.length);
  let tail = 0;
  while (tail < Math.min(most, after.length - caret) && before.at(-1 - tail) === after.at(-1 - tail)) tail++;
  let head = 0;
  while (head < most - tail && before[head] === after[head]) head++;
  const writer = new Writer();
  writer.number(head);
  writer.insert(author, after.slice(head, after.length - tail).join(""));
  writer.number(-(before.length - tail - head));
  writer.number(tail);
  return writer.parts;
}

export const changes = (delta) => delta.some((part) => inserts(part) || part < 0);

// A text as pairs of an author and what stands there of theirs in one piece.
export function runs(text) {
  const writer = new Writer();
  let from = 0;
  for (let at = 1; at <= text.characters.length; at++) {
    if (at === text.characters.length || text.authors[at] !== text.authors[from]) {
      writer.insert(text.authors[from], text.characters.slice(from, at).join(""));
      from = at;
    }
  }
  return writer.parts;
}
