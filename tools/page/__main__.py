"""Serves the workbench in a browser, on this machine only.

    ./page [PORT]

It first builds the program if there is none of the present sources, as ./lw does. Then it listens on 127.0.0.1, on the named
port or on the first free one of 8017 to 8116, prints the address of the page, and opens a browser if there is a
display. Ctrl-C ends it. If the sources change meanwhile, the page says so, and ./page has to be started again.
"""
from __future__ import annotations

import argparse
import os
import re
import signal
import socket
import sys
import threading
import webbrowser
from collections.abc import Sequence

from program import build
from page.web_files import read_all_files
from page.web_runs import Runs
from page.web_server import Server
from shared import command, start

PORTS = range(8017, 8117)
WAITING = 128


def listen(ports: Sequence[int]) -> socket.socket | None:
    """Returns a socket that listens on the first port that is free. If none is, says so and returns `None`."""
    for port in ports:
        listening = socket.socket(socket.AF_INET, socket.SOCK_STREAM)
        listening.setsockopt(socket.SOL_SOCKET, socket.SO_REUSEADDR, 1)
        try:
            listening.bind(("127.0.0.1", port))
            listening.listen(WAITING)
            return listening
        except OSError:
            listening.close()
    ports_words = f"port {ports[0]} is" if len(ports) == 1 else f"ports {ports[0]} to {ports[-1]} are"
    print(f"page: {ports_words} in use, or may not be listened on; ./page PORT takes another", file=sys.stderr)
    return None


def parse_port(word: str) -> int:
    """Returns the number of a port. Raises ArgumentTypeError if the word is none."""
    if not (re.fullmatch(r"[0-9]{1,5}", word) and 0 < int(word) < 65536):
        raise argparse.ArgumentTypeError(f"'{word}' is no port from 1 to 65535")
    return int(word)


def open_browser(address: str) -> None:
    """Opens a browser, but only if there is a display for it."""
    if os.environ.get("DISPLAY") or os.environ.get("WAYLAND_DISPLAY"):
        threading.Thread(target=webbrowser.open, args=(address,), daemon=True).start()


def main() -> int:
    """Builds the program if there is none of the present sources, and serves the page. Returns the exit status."""
    reader = command.Reader(__doc__)
    reader.add_argument("port", nargs="?", type=parse_port, metavar="PORT")
    port = reader.read().port
    ports = PORTS if port is None else [port]
    # A port that is in use is reported before a long build. No client waits at the port during the build.
    if not (listening := listen(ports)):
        return 1
    listening.close()
    if build.ask_program_sh("is_current") is None and (status := build.build_and_report(build.LW)):
        return status
    listening = listen(ports)
    return serve(listening) if listening else 1


def watch_signals() -> socket.socket:
    """Returns a socket that can be read from once Ctrl-C, TERM, HUP or QUIT has come. (A handler that raised an exception could do so anywhere.)"""
    receiver, sender = socket.socketpair()
    sender.setblocking(False)
    signal.set_wakeup_fd(sender.detach())
    for number in (signal.SIGINT, signal.SIGTERM, signal.SIGHUP, signal.SIGQUIT):
        signal.signal(number, lambda *_: None)
    return receiver


def serve(listening: socket.socket) -> int:
    """Serves the page until a signal ends it. Returns the exit status."""
    ended, runs = watch_signals(), Runs()
    server = Server(listening, read_all_files(), runs)
    threading.Thread(target=server.serve, daemon=True).start()
    address = f"http://127.0.0.1:{server.port}/"
    print(f"The workbench is at {address} (Ctrl-C ends it)", flush=True)
    open_browser(address)
    ended.recv(1)
    runs.end_all()
    return 0


if __name__ == "__main__":
    sys.exit(start.run(main))
