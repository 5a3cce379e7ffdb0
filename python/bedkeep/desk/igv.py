"""Sends a place to an IGV that runs on this machine, by the port for batches that it listens on."""
from __future__ import annotations

import re
import socket

PORT = 60151
SECONDS = 2.0


def show(sequence: str, start: int, end: int) -> str:
    """Has IGV go to a place, and says so, or why it doesn't."""
    place = f"{sequence}:{start + 1}-{end}"
    if re.search(r"[\s\x00-\x20\x7f]", sequence):
        return "IGV takes no name of a sequence with spaces or control characters."
    try:
        with socket.create_connection(("127.0.0.1", PORT), SECONDS) as connection:
            connection.sendall(f"goto {place}\n".encode("utf-8", "surrogateescape"))
            answer = connection.recv(200).split(b"\n")[0].decode("utf-8", "replace").strip()
    except ConnectionRefusedError:
        return f"No IGV listens on port {PORT} of this machine: start it, and allow the port in its preferences (Advanced)."
    except OSError:
        return f"What listens on port {PORT} of this machine doesn't answer as IGV does."
    return f"IGV shows {place}." if answer == "OK" else f"IGV says: {answer[:100] or 'nothing'}"
