"""A template provider's connections: who dials is given templates and tips, and sends solutions."""
import asyncio
from collections.abc import Awaitable, Callable

from lib.bitcoin import little
from lib.frames import (
    HEAD_LENGTH, SETUP, SETUP_ERROR, SETUP_SUCCESS, SUBMIT_SOLUTION, TEMPLATE_DISTRIBUTION, VERSION,
    BadFrame, Frame, Solution, frame, head_in, text,
)
from lib.templates import Template

SUCCESS = frame(SETUP_SUCCESS, little(VERSION, 2) + bytes(4))
# Whoever takes nothing of what it is told has so many bytes waiting, and is let go.
WAITING_LIMIT = 1 << 22


async def take(reader: asyncio.StreamReader) -> Frame | None:
    """The next frame, or None where the peer sends no more."""
    try:
        head = await reader.readexactly(HEAD_LENGTH)
        kind, length, extension = head_in(head)
        return Frame(kind, await reader.readexactly(length), extension)
    except asyncio.IncompleteReadError as error:
        if error.partial:
            raise BadFrame("it ended within a frame") from None
        return None


def refusal_of(setup: Frame | None) -> str | None:
    """Why this isn't the setup of one who wants templates; None where it is."""
    if setup is None or setup.kind != SETUP or setup.extension or len(setup.payload) < 9:
        return "its first message is no setup; it may speak with encryption"
    protocol = setup.payload[0]
    least, most = (int.from_bytes(setup.payload[at:at + 2], "little") for at in (1, 3))
    if protocol != TEMPLATE_DISTRIBUTION:
        return "unsupported-protocol"
    return None if least <= VERSION <= most else "protocol-version-mismatch"


class Sessions:
    """All who are connected. What they are told last is told to who comes, too."""

    def __init__(
        self, next_id: Callable[[Template], Template], solved: Callable[[Solution], Awaitable[None]],
        say: Callable[[str], None],
    ) -> None:
        self._next_id = next_id
        self._solved = solved
        self._say = say
        self._writers: set[asyncio.StreamWriter] = set()
        self._last: Template | None = None

    def publish(self, template: Template) -> None:
        """Tells everybody of a template; where it builds on another block than the last one, of its tip."""
        is_new = self._last is None or not self._last.same_block(template)
        self._last = template
        message = template.message(future=is_new) + (template.tip() if is_new else b"")
        for writer in list(self._writers):
            if writer.transport.get_write_buffer_size() > WAITING_LIMIT:
                writer.transport.abort()
            else:
                writer.write(message)

    def close(self) -> None:
        """Lets everybody go; who comes next is told of what is published next."""
        self._last = None
        for writer in list(self._writers):
            writer.close()

    async def serve(self, reader: asyncio.StreamReader, writer: asyncio.StreamWriter) -> None:
        """Serves one who has dialled, to the end."""
        host, port = writer.get_extra_info("peername")[:2]
        name, end = f"{host}:{port}", "it sent no more"
        try:
            refusal = await self._greet(reader, writer)
            if refusal is None:
                self._say(f"{name} is here, and is given templates")
                await self._hear(reader)
            else:
                end = refusal
        except (BadFrame, OSError) as error:
            end = str(error)
        except asyncio.CancelledError:
            end = "this is ended"
        finally:
            was_here = writer in self._writers
            self._writers.discard(writer)
            writer.close()
        self._say(f"{name} {'has left' if was_here else 'is sent away'}: {end}")

    async def _greet(self, reader: asyncio.StreamReader, writer: asyncio.StreamWriter) -> str | None:
        """Answers the setup, and gives the template and tip that are there. Answers why it doesn't."""
        refusal = refusal_of(await take(reader))
        if refusal is not None:
            writer.write(frame(SETUP_ERROR, bytes(4) + text(refusal)))
            await writer.drain()
            return refusal
        writer.write(SUCCESS)
        if self._last is not None:
            # A template that a tip makes the one to mine on was told as a future one before.
            template = self._next_id(self._last)
            writer.write(template.message(future=True) + template.tip())
        self._writers.add(writer)
        await writer.drain()
        return None

    async def _hear(self, reader: asyncio.StreamReader) -> None:
        while (said := await take(reader)) is not None:
            if said.kind == SUBMIT_SOLUTION and not said.extension:
                await self._solved(Solution.read(said.payload))
