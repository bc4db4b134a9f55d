#!/usr/bin/env python3
"""Wrong bodies of the relay, each of which a case has to tell. COTPAD_LIB names the library."""
import os
import pathlib
import shutil
import subprocess
import sys
import tempfile

import engine

engine.need()

# What is wrong, the file, the text there, what stands in its place, and the case that has to fail.
WRONG = [
    ("an edit is appended before it is saved", "peer.py",
     "            self._save_now.set()\n            await asyncio.shield(waiter)",
     "            self._replica.outbox.update(dict.fromkeys(self._replica.unsaved))\n"
     "            self._to_send.extend(self._replica.unsaved)\n            self._sendable.set()\n            await asyncio.shield(waiter)",
     "Texts.test_an_edit_waits_for_the_disk_and_is_not_sent_before"),
    ("an edit is answered before it is saved", "peer.py", "            await asyncio.shield(waiter)\n", "",
     "Texts.test_an_edit_waits_for_the_disk_and_is_not_sent_before"),
    ("frames are handed on before the file has them", "peer.py",
     "            await asyncio.get_running_loop().run_in_executor(", "            (",
     "Texts.test_frames_are_in_the_file_before_they_are_appended"),
    ("the file has no outbox", "peer.py", "[*replica.outbox, *unsaved]", "[]",
     "Crashes.test_what_was_saved_and_not_sent_is_sent_after_the_crash"),
    ("a frame leaves the outbox when it is sent", "peer.py", "                frames.append(frame)\n",
     "                frames.append(frame)\n                del self._replica.outbox[frame]\n",
     "Crashes.test_an_append_whose_answer_was_lost_is_found_in_the_stream"),
    ("the outbox is appended before the stream is read to its end", "peer.py",
     "        while await self._read_some(room):\n            pass\n", "",
     "Crashes.test_a_crash_between_append_and_acknowledgement_appends_nothing_twice"),
    ("a checkpoint holds what isn't in the stream", "peer.py",
     "            await asyncio.wait_for(self._sent.wait(), PATIENCE)\n            if self.unsent:\n                return None\n", "",
     "Checkpoints.test_it_holds_nothing_that_is_not_in_the_stream"),
    ("nobody sees that entries were trimmed", "room.py", "if later(spelled_id(trimmed), after):", "if False:",
     "Checkpoints.test_one_who_was_away_takes_it_in_and_keeps_own_edits"),
    ("what waits in a checkpoint is left out", "replica.py", "frames = frames[integrated:]", "frames = []",
     "Checkpoints.test_one_who_was_away_takes_it_in_and_keeps_own_edits"),
    ("a checkpoint takes the place of the site", "replica.py", "self.site.join(other.answer(self.site.offer()))",
     "self.site = cotpad.Site.load(self.number, log)",
     "Checkpoints.test_one_who_was_away_takes_it_in_and_keeps_own_edits"),
    ("an older checkpoint is stored over a newer one", "room.py", "if newest and not later(ARGV[1], newest) then", "if false then",
     "Checkpoints.test_they_bound_the_stream_and_never_go_back"),
    ("a checkpoint is stored whose entry isn't there", "room.py", "if #kept == 0 or kept[1][1] ~= ARGV[1] then", "if false then",
     "Checkpoints.test_they_bound_the_stream_and_never_go_back"),
    ("no margin stays", "room.py", "'MINID', kept[margin][1])", "'MINID', ARGV[1])",
     "Checkpoints.test_they_bound_the_stream_and_never_go_back"),
    ("a number goes by the name of the client", "saved.py", 'return f"{self.client}:{self.token}"', "return self.client",
     "Numbers.test_who_lost_the_file_gets_a_new_number"),
    ("a number is taken from another client", "room.py", "if number >= 0 or taken then", "if number >= 0 then",
     "Numbers.test_a_number_that_the_engine_gave_again_is_refused"),
    ("the token isn't in the file before the number is asked for", "peer.py",
     "        saved.write(path, kept.packed())\n        pauses =", "        pauses =",
     "Numbers.test_a_crash_between_token_and_number_takes_one_number"),
    ("a room is begun again where another one was", "room.py", "if ARGV[3] == '' then redis.call", "if true then redis.call",
     "Numbers.test_a_room_that_was_lost_is_not_begun_again"),
    ("what is no frame ends the peer", "replica.py", "            return why.delivered\n", "            raise\n",
     "Strangers.test_what_is_no_frame_is_told_and_loses_nothing_else"),
    ("what waited for an edit isn't let go and told", "replica.py",
     "free = list(edit.released)", "free = []",
     "Strangers.test_what_waits_for_an_undo_is_let_go_by_it_and_saved"),
    ("what a checkpoint has is sent for ever", "replica.py",
     "for frame in [it for it in self.outbox if has(other, it)]:", "for frame in []:",
     "Checkpoints.test_what_a_checkpoint_has_was_sent"),
    ("nobody sees that the engine lost entries", "peer.py", "if await room.lost(self.id):", "if False:",
     "Losses.test_the_engine_lost_the_end_of_its_stream"),
]


def told(folder, file, old, new, case):
    """Whether the case fails with this body."""
    relay = pathlib.Path(folder) / "examples" / "relay"
    shutil.copytree(engine.RELAY.parent, relay.parent, ignore=shutil.ignore_patterns("__pycache__"))
    (pathlib.Path(folder) / "python").symlink_to(engine.RELAY.parents[1] / "python")
    path = relay / "relay" / file
    text = path.read_text()
    if text.count(old) != 1:
        raise SystemExit(f"check-relay-wrong: {old!r} stands {text.count(old)} times in {file}")
    path.write_text(text.replace(old, new))
    run = subprocess.run([sys.executable, str(relay / "tests" / "cases.py"), case], capture_output=True, text=True, timeout=180,
                         env={**os.environ, "PYTHONDONTWRITEBYTECODE": "1"})
    return run.returncode != 0 and "FAILED (" in run.stderr


def main():
    missed = 0
    for what, file, old, new, case in WRONG:
        with tempfile.TemporaryDirectory(prefix="wrong.") as folder:
            if not told(folder, file, old, new, case):
                print(f"check-relay-wrong: {case} doesn't tell it: {what}", flush=True)
                missed += 1
    print(f"check-relay-wrong: {len(WRONG)} wrong bodies, {missed} not told")
    sys.exit(missed > 0)


if __name__ == "__main__":
    main()
