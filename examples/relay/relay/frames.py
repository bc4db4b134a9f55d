"""Bytes of several frames, cut by their lengths."""
LENGTH = 4
LONGEST = 171025


def split(data):
    """The frames that the bytes begin with, each with its length in front, and how many bytes are left over: those of a frame
    that is cut, or that no frame has the length of. Whether a frame is a good one is the library's to say."""
    frames, at = [], 0
    while at + LENGTH <= len(data):
        length = int.from_bytes(data[at:at + LENGTH], "big")
        if length > LONGEST or at + LENGTH + length > len(data):
            break
        frames.append(data[at:at + LENGTH + length])
        at += LENGTH + length
    return frames, len(data) - at
