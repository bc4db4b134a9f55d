"""A peer's copy of the text: a site of the library, how far the stream is read, and which frames aren't in the stream."""
from .frames import split
from .library import cotpad

SITES = 1024
LOG_HEAD = b"COTLOG2\n"
REFUSED = (cotpad.Became.FORGED, cotpad.Became.NOT_CLOSED, cotpad.Became.PLACE_OUT)
TAKEN = (cotpad.Became.INTEGRATED, cotpad.Became.WAITS)


def spelled(operation):
    """The name of an operation: 0.4 for an insert or a delete, 0.4/1 for its undos at generation 1."""
    name = f"{operation.name.site}.{operation.name.number}"
    return f"{name}/{operation.generation}" if operation.generation else name


def words(value):
    return value.name.lower().replace("_", " ")


class Replica:
    """`unsaved` has the frames of own operations that no file has yet, in their order; `outbox` those that a file has and that
    weren't read in the stream."""

    def __init__(self, number, id="0-0", log=LOG_HEAD, outbox=(), tell=print):
        self.site = cotpad.Site.load(number, log or LOG_HEAD)
        self.number, self.id = number, id
        self.unsaved, self.outbox = [], dict.fromkeys(outbox)
        self._tell = tell

    def log(self):
        return self.site.save()

    def edit(self, call):
        """Makes the edits of a call of the site. Answers their names, the refusal that ended them, if one did, and what became of
        the operations that had waited for them."""
        first, refusal = self.site.operations, None
        try:
            edit = call(self.site)
        except cotpad.Refused as why:
            refusal, edit = why, getattr(why, "edit", None)
        operations = [(at, self.site.operation(at)) for at in range(first, self.site.operations)]
        own = [(at, operation) for at, operation in operations if operation.author == self.number]
        frames = [self.site.frame(at) for at, _ in own]
        self.unsaved += frames
        free = list(edit.released)
        self._tell_refused(free, "released: ")
        return [spelled(operation) for _, operation in own], refusal, free

    def take(self, id, data):
        """Takes in the frames of an entry, and answers what became of each operation."""
        told = []
        self.id = id
        if not isinstance(data, bytes):
            self._tell(f"entry {id}: it has no frames")
            return told
        frames, left = split(data)
        for at, frame in enumerate(frames):
            if frame in self.outbox:
                del self.outbox[frame]
            else:
                told += self._deliver(frame, f"entry {id}, frame {at}: ")
        if left:
            self._tell(f"entry {id}: its last {left} bytes are no frame")
        return told

    def _deliver(self, frame, where=""):
        """Delivers one frame, and tells what isn't taken."""
        try:
            told = self.site.receive(frame)
        except cotpad.BadBytes as why:
            self._tell(f"{where}{why}")
            return why.delivered
        self._tell_refused(told, where)
        if told and told[0].operation.author == self.number and told[0].became in TAKEN:
            self._tell(f"{where}{spelled(told[0].operation)} has this peer's number, and its file lacks it: the file is an older copy, "
                       "or a copy of it is used elsewhere")
        return told

    def _tell_refused(self, told, where):
        for delivered in told:
            if delivered.became in REFUSED:
                self._tell(f"{where}{spelled(delivered.operation)} {words(delivered.became)}")

    def merge(self, id, log):
        """Takes in what a checkpoint has and this site lacks, and goes on from its entry. Own operations stay; what the checkpoint has of
        the outbox was sent, though its entry is never read."""
        with cotpad.Site.load((self.number + 1) % SITES, log) as other:
            frames, integrated = split(other.save()[len(LOG_HEAD):])[0], other.operations
            try:
                self.site.join(other.answer(self.site.offer()))
                frames = frames[integrated:]  # an exchange leaves out what waits
            except cotpad.NotTaken as why:
                self._tell(f"checkpoint {id}: {why}; its operations are taken one by one")
            for frame in [it for it in self.outbox if has(other, it)]:
                del self.outbox[frame]
        for frame in frames:
            self._deliver(frame, f"checkpoint {id}: ")
        self.id = id

    def rescue(self, log, entries):
        """Puts into the outbox all that this site has, also what waits, and a room of this checkpoint and these entries lacks."""
        with cotpad.Site.load((self.number + 1) % SITES, log or LOG_HEAD) as room:
            for frame in (frame for data in entries for frame in split(data)[0]):
                has(room, frame)
            mine = split(self.log()[len(LOG_HEAD):])[0]
            unsaved = set(self.unsaved)
            lacking = [frame for frame in mine if frame not in unsaved and not has(room, frame)]
        self.outbox.update(dict.fromkeys(lacking))
        return len(lacking)

    def close(self):
        self.site.close()


def has(site, frame):
    """Delivers a frame, and answers whether the site had its operation integrated before."""
    try:
        return site.receive(frame)[0].became == cotpad.Became.REPEAT
    except cotpad.BadBytes:
        return True
