"""The servers that are measured: the words that start them, and where they listen."""

import itertools
import pathlib
import socket

# No two have the same socket, so a run that failed and left its own is in nobody's way.
NUMBERS = itertools.count()


def server_words(programs, name, clients, forever=False):
    """Where a server listens, and the words that start it. The hub and the C server end after so many clients. With `forever` the hub
    has room for more than 64, and has to be stopped, as the others have."""
    path = f"{programs.work}/socket{next(NUMBERS)}"
    words = {
        "serve": ["serve", path, "--sessions", clients, *["--forever"] * forever],
        "ok_server": [path, clients],
        "redis": ["--port", 0, "--unixsocket", path, "--save", "", "--appendonly", "no", "--dir", programs.work],
        "mosquitto": ["-c", f"{path}.conf"],
    }
    if name == "nats":
        port = free_port()
        return [f"tcp:{port}", programs.get(name), "-a", "127.0.0.1", "-p", port, "-l", "/dev/null"]
    if name == "mosquitto":
        write_settings_of_mosquitto(words[name][1], path)
    return [path, programs.get(name), *words[name]]


def free_port():
    """A port of TCP that nobody has: NATS has no Unix socket."""
    with socket.socket() as listener:
        listener.bind(("127.0.0.1", 0))
        return listener.getsockname()[1]


def write_settings_of_mosquitto(file, path):
    """It drops no message for a slow subscriber, and logs nothing."""
    lines = [f"listener 0 {path}", "allow_anonymous true", "max_queued_messages 0", "log_dest none", "user root", ""]
    pathlib.Path(file).write_text("\n".join(lines), encoding="utf-8")
