"""A relay in front of a server, which speaks TLS with certificates that openssl makes, or plainly."""
import asyncio
import socket
import ssl
import subprocess
import threading
from typing import Any, List, Tuple

from support import SECONDS

HERE = "DNS:localhost,IP:127.0.0.1"

# What clients say of a server whose issuer is not known, of one without TLS, and of one that ends the connection.
UNKNOWN = "the issuer of its certificate is not known here; use ca=FILE or --ca FILE, the issuer's certificate from its operator"
NO_TLS = "it does not speak TLS there; use the port that does, or leave TLS out if the network may see the token"
ENDED = "it has ended the connection before it was encrypted: does it speak TLS at this port?"


def of_another_issuer(file: Any) -> str:
    """What clients say of a server whose certificate is of another issuer than the one in a file."""
    return f"its certificate is of another issuer than the one in {file}; ask its operator for the right file"


def denies(connection: Any, stop: Any) -> None:
    """A peer without TLS, that refuses what it takes for a first line."""
    connection.recv(1)
    connection.sendall(b"ERR 01 DENIED\n")
    stop.wait(SECONDS)


def certificate(folder: Any, name: Any, names: Any = HERE) -> Any:
    """A certificate for these names that is its own issuer, and its key, in files of this name."""
    files = folder / f"{name}.pem", folder / f"{name}.key"
    words = ["req", "-x509", "-newkey", "ec", "-pkeyopt", "ec_paramgen_curve:prime256v1", "-nodes", "-days", "2"]
    words += ["-subj", f"/CN={name}", "-addext", f"subjectAltName={names}", "-out", files[0], "-keyout", files[1]]
    subprocess.run(["openssl", *words], check=True, capture_output=True, timeout=SECONDS)
    return files


SETTINGS = f"""\
[ca]
default_ca = all
[all]
database = index
serial = serial
new_certs_dir = .
default_md = sha256
policy = names
x509_extensions = more
[names]
commonName = supplied
[more]
subjectAltName = {HERE}
"""


def expired(folder: Any) -> Tuple[Any, Any]:
    """A certificate that was valid for a day of 2020, and its key."""
    for name, text in (("settings", SETTINGS), ("index", ""), ("serial", "01\n")):
        (folder / name).write_text(text)
    key = ["-newkey", "ec", "-pkeyopt", "ec_paramgen_curve:prime256v1", "-nodes", "-keyout", "old.key"]
    asked = ["req", "-new", *key, "-subj", "/CN=old", "-out", "old.csr"]
    signed = ["ca", "-selfsign", "-batch", "-notext", "-config", "settings", "-keyfile", "old.key", "-in", "old.csr"]
    signed += ["-startdate", "20200101000000Z", "-enddate", "20200102000000Z", "-out", "old.pem"]
    for words in (asked, signed):
        subprocess.run(["openssl", *words], cwd=folder, check=True, capture_output=True, timeout=SECONDS)
    return folder / "old.pem", folder / "old.key"


class Relay:
    """Speaks TLS on a loopback port, or plainly without a certificate, and hands what it hears to a server on another. `heard` is what
    clients said."""

    def __init__(self, port: Any, certificate: Any = None, listener: Any = None) -> None:
        listener = listener or socket.create_server(("127.0.0.1", 0))
        self.heard = b""
        self.port = listener.getsockname()[1]
        self.to = port
        self._writers: List[Any] = []
        context = None if certificate is None else ssl.SSLContext(ssl.PROTOCOL_TLS_SERVER)
        if context is not None:
            context.load_cert_chain(*certificate)
        self._loop = asyncio.new_event_loop()
        self._loop.set_exception_handler(lambda loop, context: None)
        starting = asyncio.start_server(self._relay, sock=listener, ssl=context)
        self._server = self._loop.run_until_complete(starting)
        self._thread = threading.Thread(target=self._loop.run_forever, daemon=True)
        self._thread.start()

    async def _relay(self, reader: Any, writer: Any) -> None:
        try:
            from_server, to_server = await asyncio.open_connection("127.0.0.1", self.to)
        except OSError:
            writer.close()
            return
        self._writers += [writer, to_server]
        await asyncio.gather(self._pump(reader, to_server, True), self._pump(from_server, writer), return_exceptions=True)

    async def _pump(self, reader: Any, writer: Any, is_heard: bool = False) -> None:
        try:
            while data := await reader.read(1 << 16):
                self.heard += data if is_heard else b""
                writer.write(data)
                await writer.drain()
        finally:
            writer.close()

    def cut(self) -> None:
        """Ends all connections, and returns when they have ended."""
        asyncio.run_coroutine_threadsafe(self._cut(), self._loop).result(SECONDS)

    async def _cut(self) -> None:
        open_writers = [writer for writer in self._writers if not writer.is_closing()]
        for writer in open_writers:
            writer.transport.abort()
        await asyncio.gather(*(writer.wait_closed() for writer in open_writers), return_exceptions=True)

    def __enter__(self) -> Any:
        return self

    def __exit__(self, *_: Any) -> None:
        self._loop.call_soon_threadsafe(self._loop.stop)
        self._thread.join(SECONDS)
        self._server.close()
        for task in asyncio.all_tasks(self._loop):
            task.cancel()
        self._loop.run_until_complete(asyncio.sleep(0))
        self._loop.close()
