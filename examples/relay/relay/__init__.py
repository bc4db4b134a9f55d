"""A relay for more than one machine: rooms on Redis Streams.

A *room* is a document. A *peer* is a process that holds a site of it. Peers never speak with one another: each appends the
frames of its own operations to the room's stream, and reads all entries of the stream in their order.

    async with await Peer.open("redis://localhost", "notes", "ann", "ann.site") as peer:
        await peer.insert(0, "tea")        # answers the names 0.1, 0.2, 0.3 once they are saved
        print(peer.text)

What the engine keeps of a room R:

    cotpad:{R}:room         a hash: `id`, drawn when the room began
    cotpad:{R}:numbers      a hash: from the number of a site to the identity that it was given to
    cotpad:{R}:frames       the stream; an entry has `site`, the author's number, and `frames`, one or several whole frames
    cotpad:{R}:checkpoint   a hash: `log`, with all that the stream had up to the entry `id`, and `trimmed`, the last entry gone

What a peer keeps is one file, which is replaced as a whole: its identity and number, the log of its site, the id of the last
entry that it read, and its *outbox*, the frames of its own that it hasn't read in the stream. Five rules make it work.

1. *Saved before sent.* An operation is written into the file, with its frame in the outbox, before it is appended. Otherwise a
   peer that crashed would give the same name to another operation. An edit is answered once it is saved.
2. *Only the stream acknowledges.* A frame leaves the outbox when the peer reads it in the stream, never by the answer to
   XADD, which may be lost, and never because a checkpoint has the operation. The file holds the outbox and the id that go
   together. After each new connection a peer reads to the end of the stream, and only then appends what is left in the outbox.
   So a frame whose answer was lost is found there; one that the engine is late to take is appended twice, which is a repeat.
3. *A checkpoint holds nothing that the stream didn't have.* A peer stores one only when its outbox is empty, and lets edits
   wait for that moment. With frames in it that are not in the stream, peers that begin from it would make operations after
   something that the others can't get.
4. *What is trimmed is in the checkpoint.* One script stores a checkpoint, trims what is older but for a margin, and notes the
   last entry that went. A peer whose id is before that one loads the checkpoint as another site and takes in what it lacks:
   by an exchange what is integrated there, and frame by frame what waits there. Its own operations stay, and its outbox too.
5. *A number is given once.* An identity is a client's name with a token that was drawn when its file was made. So a client
   that lost its file is another identity, with another number: nobody may give names under the old number again, since
   nobody knows which of them are in use.

Each connection begins with two looks. If the room has another `id`, the engine lost everything, with the numbers: the peer
stops there. If the entry that it read last is neither there nor trimmed, the engine lost the end of its stream: the peer puts
all operations that the room then lacks, whoever made them, into its outbox.

An entry may have been written by anybody. It is cut into frames by their lengths, and each is delivered alone: what is no
frame, or is refused, is told and passed over, and the rest is taken.
"""
from .peer import Peer
from .room import NumberTaken, RoomFull, RoomGone, Room
from .saved import FileBad, FileInUse

__all__ = ["FileBad", "FileInUse", "NumberTaken", "Peer", "Room", "RoomFull", "RoomGone"]
