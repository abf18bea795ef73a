"""A line to a port of this machine, which may be slow, silent or cut, and counts the bytes that pass."""

import asyncio
import threading

from play.peers import HOST

BLOCK = 1 << 16


class Line:
    """A port that leads to another one. A thread of its own passes on what comes, in order."""

    def __init__(self, target):
        self.target, self.delay, self.is_cut = target, 0.0, False
        # How many bytes went to the target, and came of it, by the number of the connection.
        self.sent, self.came = {}, {}
        self.links, self._heard = set(), asyncio.Event()
        self._heard.set()
        self.loop = asyncio.new_event_loop()
        threading.Thread(target=self.loop.run_forever, daemon=True).start()
        self.server = self._do(asyncio.start_server(self._accept, HOST, 0))
        self.port = self.server.sockets[0].getsockname()[1]

    def _do(self, work):
        return asyncio.run_coroutine_threadsafe(work, self.loop).result()

    def cut(self):
        """From now on nobody is let in, and all connections are gone."""
        self.is_cut = True
        self.loop.call_soon_threadsafe(lambda: [link.transport.abort() for link in self.links])

    def silence(self):
        """Nothing arrives any more, and nobody is told."""
        self.loop.call_soon_threadsafe(self._heard.clear)

    def slow(self, delay):
        """What comes arrives so many seconds later."""
        self.delay = delay

    def mend(self):
        """It is as at first: what was under way in silence arrives, and whoever comes is let in."""
        self.is_cut, self.delay = False, 0.0
        self.loop.call_soon_threadsafe(self._heard.set)

    def bytes(self):
        """Returns how many bytes went to the target, and how many came of it, on all connections."""
        return sum(self.sent.values()), sum(self.came.values())

    async def _accept(self, reader, writer):
        number = len(self.sent)
        self.sent[number] = self.came[number] = 0
        try:
            if self.is_cut:
                raise ConnectionError
            answers, target = await asyncio.open_connection(HOST, self.target)
            self.links |= {writer, target}
            going, coming = (reader, target, self.sent), (answers, writer, self.came)
            await asyncio.gather(*(self._pass(*way, number) for way in (going, coming)))
        except OSError:
            pass
        writer.transport.abort()

    async def _pass(self, reader, writer, counts, number):
        """Passes on blocks as they come, each after the delay; in silence it holds them back."""
        blocks = asyncio.Queue()
        arriving = asyncio.create_task(self._arrive(blocks, writer))
        try:
            while block := await reader.read(BLOCK):
                counts[number] += len(block)
                blocks.put_nowait((self.loop.time() + self.delay, block))
        finally:
            blocks.put_nowait((self.loop.time() + self.delay, b""))
            await arriving

    async def _arrive(self, blocks, writer):
        while True:
            when, block = await blocks.get()
            await asyncio.sleep(max(0.0, when - self.loop.time()))
            await self._heard.wait()
            if not block:
                break
            writer.write(block)
        writer.close()
