"""Stores of the workflow engine Maroonclamp in Python: read from their files while a run goes on, changed by the program alone. Nothing here is proved."""
from .errors import Damaged, Failed, MaroonclampError, NoProgram, NoStore, Refused, Unavailable, Unknown, Unread
from .store import Done, Node, Process, Store
from .values import Folder

__all__ = ["Damaged", "Done", "Failed", "Folder", "MaroonclampError", "NoProgram", "NoStore", "Node", "Process", "Refused", "Store", "Unavailable", "Unknown", "Unread"]
