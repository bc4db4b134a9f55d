"""Places as editors count them, and the cursors of three people, placed by one call: what positions.c does, from Python."""
from cotpad import Site


def main():
    ann, bob, cy = people = [Site(number) for number in range(3)]

    def type_at(site, unit, text):
        """Inserts a text at an offset in units, as an editor tells it that counts these."""
        return site.insert(site.place_at(unit, "utf-16"), text)

    def send(edit, to):
        to.receive(b"".join(edit))

    def tell(what, place):
        line, column = ann.line(place)
        print(f"{what:5} {place:5} {ann.offset(place, 'utf-8'):5} {ann.offset(place, 'utf-16'):5} {line:4}:{column}")

    def look(when):
        print(when)
        for name, place in zip(("Ann", "Bob", "Cy"), ann.places_of(cursors)):
            if place is not None:
                tell(name, place)
            else:
                print(f"{name:5}     -")

    typed = type_at(ann, 0, "aé\n𝄞€")
    print("      place bytes units line:column")
    for place in range(ann.characters + 1):
        tell("", place)
    print("unit 4:", ann.place_at(4, "utf-16"))  # between the units of the clef
    print("line 1, column 1: place", ann.place_in(1, 1))
    print("line 0, column 3:", ann.place_in(0, 3))

    send(typed, bob)
    send(typed, cy)
    last = type_at(cy, 6, "!")
    cursors = [ann.anchor(4), bob.anchor(1), cy.anchor(6)]  # as each told the others
    look("Cy's cursor is known before what he typed")
    send(type_at(bob, 0, "Hi\n"), ann)
    look("Bob types a line in front")
    send(last, ann)
    look("Cy's text comes")
    for site in people:
        site.close()


main()
