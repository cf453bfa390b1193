"""The work of a queue by redis-py: redis_py.py PORT VARIANT

VARIANT is python or hiredis, the parser of the replies, with -asyncio behind it for the asyncio interface. Behind the
steps on two connections, eight threads or tasks share one client and do 200 jobs, each of which has to be done once.
"""
import asyncio
import inspect
import sys
import threading

import redis
import redis.asyncio

from forms import entries, say, text, texts

JOBS = [(f"{number}-0", {"job": "mail", "number": number}) for number in range(1, 9)]


def pairs_of(found):
    return entries((identifier, fields and list(fields.items())) for identifier, fields in found)


def first_stream(found):
    return pairs_of(found[0][1] if found else [])


class Work:
    """The steps, over a client of either interface."""

    def __init__(self, open_client):
        self.open_client = open_client

    async def ask(self, answer):
        return await answer if inspect.isawaitable(answer) else answer

    async def refused(self, step, call):
        try:
            await self.ask(call())
            say(step, "no error")
        except redis.ResponseError as error:
            # redis-py takes ERR from the front of the text.
            first = str(error).split()[0]
            say(step, "error " + (first if first in ("BUSYGROUP", "NOGROUP") else "ERR"))

    async def queue(self):
        ask, one, two = self.ask, self.open_client(), self.open_client()
        say("ping", "PONG" if await ask(one.ping()) else "nothing")
        say("produce", texts([await ask(one.xadd("jobs", fields, id=place)) for place, fields in JOBS]))
        say("length", await ask(one.xlen("jobs")))
        say("create", "OK" if await ask(one.xgroup_create("jobs", "workers", id="0")) else "nothing")
        await self.refused("create again", lambda: one.xgroup_create("jobs", "workers", id="0"))
        say("one reads", first_stream(await ask(one.xreadgroup("workers", "one", {"jobs": ">"}, count=3))))
        say("two reads", first_stream(await ask(two.xreadgroup("workers", "two", {"jobs": ">"}, count=3))))
        say("acknowledge", await ask(one.xack("jobs", "workers", "1-0", "2-0")))
        told = await ask(one.xpending("jobs", "workers"))
        say("pending", f"{told['pending']} {text(told['min'])} {text(told['max'])} " + " ".join(
            f"{text(row['name'])}={text(row['pending'])}" for row in told["consumers"]))
        rows = await ask(one.xpending_range("jobs", "workers", "-", "+", 10, consumername="two"))
        say("rows", " ".join(f"{text(row['message_id'])}/{text(row['consumer'])}/{row['times_delivered']}"
                             for row in rows))
        await self.claims(one, two)
        await self.ends(one, two)
        for client in (one, two):
            await ask(client.close())

    async def claims(self, one, two):
        ask = self.ask
        say("claim", pairs_of(await ask(one.xclaim("jobs", "workers", "one", 0, ["4-0", "8-0"]))))
        say("claim ids", texts(await ask(one.xclaim("jobs", "workers", "one", 0, ["5-0"], justid=True))))
        found = await ask(two.xautoclaim("jobs", "workers", "two", 0, "0-0", count=2))
        say("scan", f"{text(found[0])} {pairs_of(found[1])}")
        found = await ask(two.xautoclaim("jobs", "workers", "two", 0, found[0], count=2))
        say("scan on", f"{text(found[0])} {pairs_of(found[1])}")
        say("delete", await ask(one.xdel("jobs", "8-0", "9-0")))
        say("trim", await ask(one.xtrim("jobs", maxlen=4, approximate=False)))
        say("history", first_stream(await ask(two.xreadgroup("workers", "two", {"jobs": "0"}))))
        say("range", pairs_of(await ask(one.xrange("jobs", "5-0", "+", count=2))))
        say("range back", pairs_of(await ask(one.xrevrange("jobs", count=1))))

    async def ends(self, one, two):
        ask = self.ask
        await self.refused("small id", lambda: one.xadd("jobs", {"f": "v"}, id="1-0"))
        await self.refused("no id", lambda: one.xadd("jobs", {"f": "v"}, id="odd"))
        await self.refused("no group", lambda: one.xreadgroup("others", "one", {"jobs": ">"}))
        await self.refused("no command", lambda: one.execute_command("ODD", "jobs"))
        value = bytes(range(256))
        say("bytes", text(await ask(one.xadd("bytes", {b"all": value}, id="1-1"))))
        say("bytes back", pairs_of(await ask(one.xrange("bytes"))))
        pipe = one.pipeline(transaction=False)
        pipe.xadd("jobs", {"f": "v"}, id="20-0")
        pipe.xadd("jobs", {"f": "v"}, id="21-0")
        pipe.xlen("jobs")
        say("together", texts(await ask(pipe.execute())))
        say("two reads on", first_stream(await ask(two.xreadgroup("workers", "two", {"jobs": ">"}, noack=True))))
        say("nothing new", first_stream(await ask(two.xreadgroup("workers", "two", {"jobs": ">"}, block=10))))
        say("remove consumer", await ask(one.xgroup_delconsumer("jobs", "workers", "two")))
        say("destroy", int(await ask(one.xgroup_destroy("jobs", "workers"))))
        say("drop", await ask(one.delete("jobs")))
        say("drop bytes", await ask(one.delete("bytes")))


    async def many(self):
        """Many requests at once, a reply of 200 KB, and a value of 100 KB."""
        client = self.open_client()
        pipe = client.pipeline(transaction=False)
        for number in range(1, 2001):
            pipe.xadd("many", {"v": "x" * 100}, id=f"{number}-0")
        answers = await self.ask(pipe.execute())
        say("many together", f"{len(answers)} {text(answers[0])} {text(answers[-1])}")
        found = await self.ask(client.xrange("many"))
        say("many back", f"{len(found)} {pairs_of(found[-1:])}")
        await self.ask(client.xadd("great", {"v": "y" * 100_000}, id="1-1"))
        say("great back", len((await self.ask(client.xrange("great")))[0][1][b"v"]))
        await self.ask(client.delete("many", "great"))
        await self.ask(client.close())

    async def drain(self, client, name, done):
        """Takes jobs one by one until there is none."""
        while found := await self.ask(client.xreadgroup("crew", name, {"shared": ">"}, count=1)):
            for identifier, _ in found[0][1]:
                assert await self.ask(client.xack("shared", "crew", identifier)) == 1
                done.append(text(identifier))

    async def crew(self, is_async):
        client, done = self.open_client(), []
        await self.ask(client.xgroup_create("shared", "crew", id="0", mkstream=True))
        for number in range(1, 201):
            await self.ask(client.xadd("shared", {"v": number}, id=f"{number}-0"))
        names = [f"c{number}" for number in range(8)]
        if is_async:
            await asyncio.gather(*(self.drain(client, name, done) for name in names))
        else:
            drains = [threading.Thread(target=asyncio.run, args=(self.drain(client, name, done),)) for name in names]
            for drain in drains:
                drain.start()
            for drain in drains:
                drain.join()
        once = sorted(done) == sorted(f"{number}-0" for number in range(1, 201))
        say("crew", "each once" if once else f"not each once: {texts(done)}")
        say("crew pending", (await self.ask(client.xpending("shared", "crew")))["pending"])
        await self.ask(client.delete("shared"))
        await self.ask(client.close())

    async def all(self, is_async):
        await self.queue()
        await self.many()
        await self.crew(is_async)


def main(port, variant):
    parser, _, interface = variant.partition("-")
    here = redis.asyncio if interface else redis
    kinds = {"python": here.connection.PythonParser, "hiredis": here.connection.HiredisParser}

    def open_client():
        return here.Redis(connection_pool=here.ConnectionPool(host="127.0.0.1", port=int(port),
                                                              parser_class=kinds[parser]))

    asyncio.run(Work(open_client).all(bool(interface)))


if __name__ == "__main__":
    main(*sys.argv[1:])
