"""A cursor that stays where its user put it, while others edit: what cursor.c does, from Python."""
from cotpad import Cursor, Refused, Site


def send(edit, to):
    to.receive(b"".join(edit))


def main():
    ann, bob = Site(0), Site(1)
    here = Cursor(ann)

    def draw(what):
        text, place = ann.text, here.place
        print(f"{what:34}{text[:place]}|{text[place:]}")

    send(ann.insert(0, "Agenda: budget"), bob)
    here.place = 8
    draw("Ann puts the cursor")
    send(bob.insert(0, ">> "), ann)
    draw("Bob types before it")
    send(bob.insert(17, ", staff"), ann)
    draw("Bob types after it")
    send(ann.insert(here.place, "draft "), bob)
    here.place += len("draft ")
    draw("Ann types")
    send(bob.insert(17, "short "), ann)
    draw("Bob types at the cursor")
    deleted = bob.delete(11, 6)
    send(deleted, ann)
    draw("Bob deletes what Ann typed")
    send(bob.insert(3, "our "), ann)
    draw("Bob types before it")
    send(bob.undo(deleted.names[-1]), ann)
    draw("Bob takes back the last delete")
    send(ann.delete(here.place - 1), bob)
    draw("Ann deletes backwards")
    here.place = 0
    draw("Ann puts it to the front")
    try:
        here.place = 99
    except Refused as why:
        print("past the text:", why)
    ann.close()
    bob.close()


main()
