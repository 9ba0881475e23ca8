"""The reference of conformance/ as a server, with something in it replaced: a program that answers otherwise.

usage: reference_server.py BEFORE AFTER serve --listen HOST:PORT --users FILE ..
       reference_server.py BEFORE AFTER run
       reference_server.py BEFORE AFTER --version
"""
import pathlib
import socket
import sys
import threading
import types
from typing import Any

REFERENCE = pathlib.Path(__file__).resolve().parents[3] / "conformance" / "reference.py"
before, after, *words = sys.argv[1:]
if words == ["--version"]:
    print("reference")
    sys.exit()
text = REFERENCE.read_text()
assert before in text
reference = types.ModuleType("reference")
sys.modules["reference"] = reference
exec(compile(text.replace(before, after) if before else text, str(REFERENCE), "exec"), reference.__dict__)
if words == ["run"]:
    sys.stdout.buffer.writelines(reference.replies_to(sys.stdin.buffer, reference.User((8, 16384, 16))))
    sys.exit()


def option(name: Any) -> Any:
    return words[words.index(name) + 1]


def serve(stream: Any, users: Any) -> None:
    with stream, stream.makefile("rwb") as lines:
        _, name, token = lines.readline().decode().split()
        wanted, user, lock = users[name]
        assert token == wanted
        with lock:
            lines.write(f"OK HELLO {name}\n".encode())
            lines.flush()
            for reply in reference.replies_to(lines, user):
                lines.write(reply)
                lines.flush()


def main() -> None:
    rows = [line.split() for line in pathlib.Path(option("--users")).read_text().splitlines()]
    users = {name: (token, reference.User(tuple(map(int, quota))), threading.Lock()) for name, token, *quota in rows}
    host, _, port = option("--listen").rpartition(":")
    with socket.create_server((host, int(port))) as listener:
        while True:
            threading.Thread(target=serve, args=(listener.accept()[0], users), daemon=True).start()


main()
