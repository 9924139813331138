"""A shorter session that differs still."""


def shrunk(frames, differs):
    """The frames that are left of a list where others are taken out, half of them first, as long as it differs still."""
    size = max(1, len(frames) // 2)
    while True:
        at = 0
        while at < len(frames):
            fewer = frames[:at] + frames[at + size :]
            if fewer and differs(fewer):
                frames = fewer
            else:
                at += size
        if size == 1:
            return frames
        size //= 2
