"""What the folder of a job tells: its request, whether its program runs, and the processes that belong to it. Part
of the tools. Needs Linux's /proc.
"""
import fcntl
import os

import reader


def folder_of(number):
    """The folder of a job below the current one."""
    return os.path.join("wc.work", str(number))


def content(number, name, limit=1 << 16):
    """The last bytes of a file of a job's folder as text, or None."""
    try:
        with open(os.path.join(folder_of(number), name), "rb") as it:
            it.seek(0, os.SEEK_END)
            it.seek(max(it.tell() - limit, 0))
            return it.read().decode("utf-8", "replace")
    except OSError:
        return None


def request(number):
    """The request of a job: program, args, files and fetch; None where its folder has none."""
    try:
        with open(os.path.join(folder_of(number), "_wc_request"), "rb") as it:
            return reader.plain(reader.Bytes(it.read()).value())
    except (OSError, reader.Damaged, UnicodeDecodeError):
        return None


def stat_of(pid):
    """The session of a process, and the moment when it began."""
    with open(f"/proc/{pid}/stat", "rb") as it:
        words = it.read().rpartition(b")")[2].split()
    return int(words[3]), int(words[19])


def is_of(pid, top):
    """Whether a process is the script of the job in a folder, or writes what that job's program writes."""
    try:
        with open(f"/proc/{pid}/cmdline", "rb") as it:
            words = it.read().split(b"\0")
        if os.readlink(f"/proc/{pid}/cwd") == top and any(word.endswith(b"_wc_run.sh") for word in words):
            return True
        return any(os.readlink(f"/proc/{pid}/fd/{fd}") == f"{top}/{name}" for fd, name in ((1, "stdout.txt"), (2, "stderr.txt")))
    except OSError:
        return False


def processes(number):
    """The processes of a job that run, as pairs of process and its moment: its script, what writes to its stdout.txt or stderr.txt,
    and what is in a session that one of these leads, or whose leader is gone. Someone who only looks at the folder isn't met."""
    top = os.path.realpath(folder_of(number))
    moments, sessions = {}, {}
    for name in os.listdir("/proc"):
        if name.isdigit():
            try:
                sessions[int(name)], moments[int(name)] = stat_of(name)
            except (OSError, ValueError, IndexError):
                pass
    found = {pid for pid in moments if is_of(pid, top)}
    own = os.getsid(0)
    whole = {sessions[pid] for pid in found if sessions[pid] != own and (sessions[pid] in found or sessions[pid] not in moments)}
    found |= {pid for pid in moments if sessions[pid] in whole}
    found.discard(os.getpid())
    return sorted((pid, moments[pid]) for pid in found)


def is_locked(number):
    """Whether the script of a job holds its lock; None where nothing tells. Asked only behind the script's own look at it."""
    try:
        with open(os.path.join(folder_of(number), "_wc_run.sh"), "rb") as it:
            try:
                fcntl.flock(it, fcntl.LOCK_SH | fcntl.LOCK_NB)
                return False
            except BlockingIOError:
                return True
    except OSError:
        return None


def how(number):
    """How the program of a job is: 'none', 'waits', 'runs', 'ended' or 'lost'."""
    folder = folder_of(number)
    if not os.path.isdir(folder) or not os.path.exists(os.path.join(folder, "_wc_request")):
        return "none"
    if os.path.exists(os.path.join(folder, "_wc_status")):
        return "ended"
    if not os.path.isdir(os.path.join(folder, "_wc_lock")):
        return "waits"
    return "runs" if processes(number) or is_locked(number) else "lost"
