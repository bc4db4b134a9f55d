"""A host that edits a document and prints each frame as soon as it is handed out, until it is killed: crash_host.py FILE SEED."""
import random
import sys

from cotpad import Document, Undo

mine, draw = Document(sys.argv[1]), random.Random(int(sys.argv[2]))
undo = Undo(mine)
while True:
    act = draw.randrange(6)
    if act == 0:
        with mine.batch() as batch:
            batch.insert(0, "".join(draw.choices("xyz", k=3)))
            batch.delete(draw.randrange(3))
        edit = batch.edit
    elif act == 1 and mine.characters:
        edit = mine.delete(draw.randrange(mine.characters))
    elif act == 2:
        edit = undo.last()
    else:
        edit = mine.insert(draw.randint(0, mine.characters), "".join(draw.choices("abcdef", k=draw.randint(1, 3))))
    for frame in edit:
        print(frame.hex(), flush=True)
