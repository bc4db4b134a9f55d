// Does what each line of the standard input asks of the page's modules, and writes the answers: tests/test_page.py compares them.
import { createInterface } from "node:readline";
import { applied, composed, crossed, lengthAfter, lengthBefore, moved, runs, typed } from "../page/delta.js";
import { Sync } from "../page/sync.js";

const text = (pairs) => ({ characters: pairs.map(([, it]) => it), authors: pairs.map(([it]) => it) });
const pairs = ({ characters, authors }) => characters.map((it, at) => [authors[at], it]);

const CALLS = {
  applied: (delta, before) => pairs(applied(delta, text(before))),
  composed,
  crossed,
  moved: (place, delta) => moved(place, delta),
  lengths: (delta) => [lengthBefore(delta), lengthAfter(delta)],
  runs: (before) => runs(text(before)),
  typed: (before, after, author, caret) => typed([...before], [...after], author, caret),
  sync: (steps) => {
    const sent = [], sync = new Sync((delta, version) => sent.push([delta, version]));
    const answers = steps.map(([what, delta]) => sync[what](delta) ?? null);
    return [answers, sent, sync.quiet, sync.version];
  },
};

for await (const line of createInterface({ input: process.stdin })) {
  const [call, ...args] = JSON.parse(line);
  console.log(JSON.stringify(CALLS[call](...args)));
}
