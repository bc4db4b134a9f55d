// Keeps a tab in step with its person's text at the server.
//
// An edit is shown at once and sent. While it is on its way no other is sent: what is typed meanwhile is gathered, and goes as one when
// the server has taken the first. What comes from others meanwhile was made before those edits, so it crossed them, and they it.
import { composed, crossed, moved } from "./delta.js";

export class Sync {
  // `send` takes an edit and the version on which it is based: how many deltas of others had come.
  constructor(send) {
    this.send = send;
    this.version = 0;
    this.way = null; // the edit on its way
    this.next = null; // what was done since
  }

  get quiet() {
    return this.way === null;
  }

  // What the user did.
  local(delta) {
    if (this.way === null) {
      this.way = delta;
      this.send(delta, this.version);
    } else {
      this.next = this.next === null ? delta : composed(this.next, delta);
    }
  }

  // What came from others: answers what it is for the text that this tab shows.
  remote(delta) {
    this.version++;
    if (this.way !== null) [this.way, delta] = crossed(this.way, delta);
    if (this.next !== null) [this.next, delta] = crossed(this.next, delta);
    return delta;
  }

  // The server has done the edit that was on its way.
  taken() {
    this.way = this.next;
    this.next = null;
    if (this.way !== null) this.send(this.way, this.version);
  }

  // Where a place of the text at the server is in the text that this tab shows.
  here(place) {
    for (const delta of [this.way, this.next]) if (delta !== null) place = moved(place, delta);
    return place;
  }
}
