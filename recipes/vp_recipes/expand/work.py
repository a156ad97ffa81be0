"""How much is done for one stream beside what it says itself: of formats that are recalled, of numbers that are
counted."""

# So many bytes for any stream, so many more for each of its own, and so many at most.
FOR_ANY, FOR_EACH, MOST = 2 << 20, 16, 32 << 20
FOR_ASKING = 128


class Work:
    """What is left of the bytes of labels that may be written again for a stream of `size` bytes."""

    def __init__(self, size: int) -> None:
        self.left = min(FOR_ANY + FOR_EACH * size, MOST)

    def is_taken(self, count: int) -> bool:
        """Takes so many bytes of what is left, and some for asking, if they are there."""
        if self.left < count + FOR_ASKING:
            return False
        self.left -= count + FOR_ASKING
        return True
