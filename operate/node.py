#!/usr/bin/env python3
"""A template provider over a Bitcoin node, for a pool that speaks without encryption.

    node.py 127.0.0.1:8332 127.0.0.1:8442
    node.py user:password@127.0.0.1:8332 127.0.0.1:8442 --blocks /var/lib/maqefwi/blocks

The first word is where the node's JSON-RPC is, the second where the pool dials (`feed` in its settings).
The node is asked as the user that is named, or by its cookie. It is asked for its best block twice a
second, and for a template (`getblocktemplate`) where that has changed, and each 30 seconds: so miners
hear something that often, and cgminer leaves a pool that says nothing for 90. Templates have numbers
that never come again, also not after a restart: a pool refuses a template whose number its ledger's last
ones have.

A solution is put together with the template's transactions, written to a file HASH.block in --blocks,
as hexadecimal, and handed in (`submitblock`), again and again until the node has answered. By hand it is
`bitcoin-cli -stdin submitblock < HASH.block`. Templates are known until the second block after theirs.

Where the node hasn't answered for a minute, everybody is let go and nobody let in until it does again,
so that nobody mines on an old tip; `keep.py` begins the pool anew then.

It was tried against recorded answers alone, never against a node. Nothing of it is proved. Test networks
whose blocks are signed (signet) aren't served.

Status 0: it was ended. 1: it can't listen there. 2: the words are wrong.
"""
import argparse
import asyncio
import os
import signal
import sys
import time
from collections.abc import Callable

from lib.addresses import split_address
from lib.bitcoin import displayed
from lib.commands import parser_of, status_of
from lib.frames import Solution
from lib.providing import Sessions
from lib.rpc import COOKIE, Node, NodeError, Refused
from lib.templates import BadTemplate, Block, Template
from lib.words import coin_words, time_words

RULES = {"rules": ["segwit"]}
LOOK = 0.5
EVERY = 30.0
GIVEN_UP = 60.0
# How often a block is handed in to a node that doesn't answer, a second apart.
TRIES = 600
TO_END = 10.0
# Of so many previous blocks templates are known.
KNOWN_TIPS = 3


def say(words: str) -> None:
    print(f"{time_words(time.time())} {words}", flush=True)


class Provider:
    """What the node proposed, and who is told of it."""

    def __init__(self, node: Node, blocks: str) -> None:
        self.node = node
        self.blocks = blocks
        self.sessions = Sessions(self.renumbered, self.solved, say)
        self.answered = time.monotonic()
        self._asked = 0.0
        self._best = ""
        self._last_id = 0
        self._templates: dict[int, Template] = {}
        self._tips: list[bytes] = []
        self._handing_in: set[asyncio.Task] = set()
        self._last_words = ""

    def next_id(self) -> int:
        """A number that none before had: the time in nanoseconds, or one more than the last."""
        self._last_id = max(self._last_id + 1, time.time_ns())
        return self._last_id

    def renumbered(self, template: Template) -> Template:
        """The same template with a number of its own."""
        template = template.with_id(self.next_id())
        self._templates[template.id] = template
        return template

    async def look(self) -> None:
        """Asks the node for its best block, and for a template where that has changed or it is time."""
        try:
            best = await asyncio.to_thread(self.node.call, "getbestblockhash")
            now = time.monotonic()
            if best != self._best or now >= self._asked + EVERY:
                said = await asyncio.to_thread(self.node.call, "getblocktemplate", RULES)
                self._take(Template.of(self.next_id(), said))
                self._best, self._asked = best, now
            self.answered = now
            self._last_words = ""
        except (NodeError, BadTemplate) as error:
            if str(error) != self._last_words:
                say(str(error))
            self._last_words = str(error)

    def is_answered(self) -> bool:
        """Whether the node has answered within the last minute, and proposed something."""
        return bool(self._templates) and time.monotonic() < self.answered + GIVEN_UP

    def give_up(self) -> None:
        """Lets everybody go, until the node proposes something again."""
        self.sessions.close()
        self._best = ""

    async def solved(self, solution: Solution) -> None:
        """Puts a block together, keeps it and hands it in."""
        template = self._templates.get(solution.template_id)
        if template is None:
            say(f"A SOLUTION for template {solution.template_id}, which isn't known any more")
            return
        try:
            block = template.block(solution)
        except BadTemplate as error:
            say(f"a solution for template {solution.template_id} is refused: {error}")
            return
        if not block.meets_target:
            say(f"a solution for template {solution.template_id} is no block: {block.hash}")
            return
        self._keep(block)
        say(f"A BLOCK at height {template.height}: {block.hash}, {coin_words(template.value)} BTC")
        task = asyncio.get_running_loop().create_task(self._hand_in(block))
        self._handing_in.add(task)
        task.add_done_callback(self._handing_in.discard)

    async def end(self) -> None:
        """Waits for blocks that are being handed in, for some seconds."""
        if self._handing_in:
            await asyncio.wait(self._handing_in, timeout=TO_END)

    def _take(self, template: Template) -> None:
        if template.previous not in self._tips:
            height, previous = template.height, displayed(template.previous)
            say(f"a new tip: block {height} is built on {previous}")
            self._tips = [*self._tips, template.previous][-KNOWN_TIPS:]
            known = self._templates.items()
            self._templates = {id_: one for id_, one in known if one.previous in self._tips}
        self._templates[template.id] = template
        self.sessions.publish(template)

    def _keep(self, block: Block) -> None:
        """Writes a block to its file, so that it can be handed in by hand."""
        path = os.path.join(self.blocks, f"{block.hash}.block")
        try:
            with open(path, "w", encoding="ascii") as file:
                file.write(block.content.hex() + "\n")
        except OSError as error:
            say(f"the block {block.hash} can't be kept: {error}")

    async def _hand_in(self, block: Block) -> None:
        for _ in range(TRIES):
            try:
                answer = await asyncio.to_thread(self.node.call, "submitblock", block.content.hex())
            except Refused as error:
                say(f"THE NODE REFUSES the block {block.hash}: {error}")
                return
            except NodeError as error:
                say(f"the block {block.hash} isn't handed in yet: {error}")
                await asyncio.sleep(1.0)
                continue
            say(f"the node {'accepts' if answer is None else f'says {answer} of'} the block {block.hash}")
            return
        say(f"THE BLOCK {block.hash} ISN'T HANDED IN: the node didn't answer")


async def serve(provider: Provider, address: str) -> None:
    """Serves who dials the address while the node answers, until it is told to end."""
    ending = asyncio.Event()
    for number in (signal.SIGTERM, signal.SIGINT):
        asyncio.get_running_loop().add_signal_handler(number, ending.set)
    host, port = split_address(address)
    server = None
    while not ending.is_set():
        await provider.look()
        if provider.is_answered() and server is None:
            server = await asyncio.start_server(provider.sessions.serve, host, port)
            say(f"pools are served at {host}:{server.sockets[0].getsockname()[1]}")
        elif not provider.is_answered() and server is not None:
            say("THE NODE DOESN'T ANSWER: everybody is let go until it does")
            server.close()
            provider.give_up()
            server = None
        await wait(ending.wait, LOOK)
    if server is not None:
        server.close()
    await provider.end()


async def wait(event: Callable, seconds: float) -> None:
    """Waits for an event, but no longer than so many seconds."""
    try:
        await asyncio.wait_for(event(), seconds)
    except TimeoutError:
        pass


def node_in(text: str) -> Node:
    """Where the node is, and as whom it is asked."""
    user, _, address = text.removeprefix("http://").rstrip("/").rpartition("@")
    try:
        split_address(address)
    except ValueError as error:
        raise argparse.ArgumentTypeError(str(error)) from None
    return Node(address, user or None)


def main() -> int:
    parser = parser_of(__doc__)
    parser.add_argument("node", metavar="RPC", type=node_in, help="[USER:PASSWORD@]HOST:PORT of the node")
    parser.add_argument("address", metavar="ADDRESS", help="where pools dial, as 127.0.0.1:8442")
    parser.add_argument("--cookie", metavar="FILE", default=COOKIE, help=f"the node's cookie ({COOKIE})")
    parser.add_argument("--blocks", metavar="FOLDER", default=".", help="where blocks are kept (here)")
    words = parser.parse_args()
    words.node.cookie = words.cookie
    try:
        split_address(words.address)
    except ValueError as error:
        parser.error(str(error))
    if not os.path.isdir(words.blocks):
        parser.error(f"{words.blocks} is no folder")
    provider = Provider(words.node, words.blocks)
    return status_of(lambda: asyncio.run(serve(provider, words.address)))


if __name__ == "__main__":
    sys.exit(main())
