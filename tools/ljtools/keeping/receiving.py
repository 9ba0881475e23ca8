"""How the connections of a front read."""
import asyncio

BYTES_AT_ONCE = 1 << 16


class Receiver(asyncio.BufferedProtocol):
    """A protocol whose `data_received` gets the bytes that arrived, read into one buffer for all connections of the process' only loop.

    Without a buffer, asyncio allocates 256 KiB for each read. The C library may take these from the system and give them back
    each time: then a command takes twice as long.
    """

    _buffer = memoryview(bytearray(BYTES_AT_ONCE))

    def get_buffer(self, sizehint: int) -> memoryview:
        return self._buffer

    def buffer_updated(self, count: int) -> None:
        self.data_received(bytes(self._buffer[:count]))

    def data_received(self, data: bytes) -> None:
        raise NotImplementedError
