"""What goes wrong with a store, or with a command on it: each has a name, and all are MaroonclampError."""


class MaroonclampError(Exception):
    """Anything that this package raises of itself."""


class NoStore(MaroonclampError):
    """The folder has no store."""


class Damaged(MaroonclampError):
    """The files aren't as the formats say. `disk` is 1 or 2, `at` counts bytes from 0, and `byte` is what stands there, or None at the file's end."""

    def __init__(self, disk, at, byte):
        super().__init__(f"damaged: disk {disk} at {at} " + ("end" if byte is None else f"byte {byte}"))
        self.disk, self.at, self.byte = disk, at, byte


class Unread(MaroonclampError):
    """Bytes that are no value, no request or no batch: the refusal's name, and its offset."""

    def __init__(self, name, at):
        super().__init__(f"{name} at {at}")
        self.name, self.at = name, at


class Unknown(MaroonclampError):
    """The store has no node or no process of this number."""


class Unavailable(MaroonclampError):
    """A file can't be read, or a command of the program ended with status 5: most often another command holds the store."""


class Refused(MaroonclampError):
    """The program refused a command. `text` is what it said, without `refused: `."""

    def __init__(self, text):
        super().__init__(text)
        self.text = text


class Failed(MaroonclampError):
    """A command of the program ended otherwise than well: its `status`, with what it printed as `text`."""

    def __init__(self, status, text):
        super().__init__(f"status {status}" + (f": {text}" if text else ""))
        self.status, self.text = status, text


class NoProgram(MaroonclampError):
    """The program isn't there."""
