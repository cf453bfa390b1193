// The work of a queue by node-redis: node_redis.js PORT. Debian has it in /usr/share/nodejs.
"use strict";
const redis = require("redis");

const text = (value) => {
  const data = Buffer.isBuffer(value) ? value : Buffer.from(String(value));
  return /^[A-Za-z0-9-]+$/.test(data.toString("latin1")) ? data.toString() : "hex:" + data.toString("hex");
};
const texts = (values) => values.map(text).join(" ");
const fieldsOf = (message) => Object.entries(message).map(([name, value]) => `${text(name)}=${text(value)}`).join(" ");
const entry = (one) => text(one.id) + (one.message === null ? "none" : `{${fieldsOf(one.message)}}`);
const entries = (found) => found.map(entry).join(" ") || "nothing";
const firstStream = (found) => (found === null ? "nothing" : entries(found[0].messages));
const say = (step, answer) => console.log(`${step}: ${answer}`);

async function refused(step, call) {
  try {
    await call();
    say(step, "no error");
  } catch (error) {
    say(step, error instanceof redis.ErrorReply ? "error " + error.message.split(" ")[0] : String(error));
  }
}

async function produceAndRead(one, two) {
  say("ping", await one.ping());
  const jobs = [1, 2, 3, 4, 5, 6, 7, 8];
  say("produce", texts(await Promise.all(
    jobs.map((number) => one.xAdd("jobs", `${number}-0`, { job: "mail", number: String(number) })))));
  say("length", await one.xLen("jobs"));
  say("create", await one.xGroupCreate("jobs", "workers", "0"));
  await refused("create again", () => one.xGroupCreate("jobs", "workers", "0"));
  const next = { key: "jobs", id: ">" };
  say("one reads", firstStream(await one.xReadGroup("workers", "one", next, { COUNT: 3 })));
  say("two reads", firstStream(await two.xReadGroup("workers", "two", next, { COUNT: 3 })));
  say("acknowledge", await one.xAck("jobs", "workers", ["1-0", "2-0"]));
  const told = await one.xPending("jobs", "workers");
  say("pending", `${told.pending} ${text(told.firstId)} ${text(told.lastId)} `
    + told.consumers.map((row) => `${text(row.name)}=${text(row.deliveriesCounter)}`).join(" "));
  const rows = await one.xPendingRange("jobs", "workers", "-", "+", 10, { consumer: "two" });
  say("rows", rows.map((row) => `${text(row.id)}/${text(row.owner)}/${row.deliveriesCounter}`).join(" "));
}

async function claimAndTrim(one, two) {
  say("claim", entries(await one.xClaim("jobs", "workers", "one", 0, ["4-0", "8-0"])));
  say("claim ids", texts(await one.xClaimJustId("jobs", "workers", "one", 0, "5-0")));
  let found = await two.xAutoClaim("jobs", "workers", "two", 0, "0-0", { COUNT: 2 });
  say("scan", `${text(found.nextId)} ${entries(found.messages)}`);
  found = await two.xAutoClaim("jobs", "workers", "two", 0, found.nextId, { COUNT: 2 });
  say("scan on", `${text(found.nextId)} ${entries(found.messages)}`);
  say("delete", await one.xDel("jobs", ["8-0", "9-0"]));
  say("trim", await one.xTrim("jobs", "MAXLEN", 4));
  // xReadGroup of this version fails on an entry that is gone, so its reply is read here.
  const history = await two.sendCommand(["XREADGROUP", "GROUP", "workers", "two", "STREAMS", "jobs", "0"]);
  say("history", entries(history[0][1].map(([id, words]) => (
    { id, message: words && { [words[0]]: words[1], [words[2]]: words[3] } }))));
  say("range", entries(await one.xRange("jobs", "5-0", "+", { COUNT: 2 })));
  say("range back", entries(await one.xRevRange("jobs", "+", "-", { COUNT: 1 })));
}

async function endAll(one, two) {
  await refused("small id", () => one.xAdd("jobs", "1-0", { f: "v" }));
  await refused("no id", () => one.xAdd("jobs", "odd", { f: "v" }));
  await refused("no group", () => one.xReadGroup("others", "one", { key: "jobs", id: ">" }));
  await refused("no command", () => one.sendCommand(["ODD", "jobs"]));
  const all = Buffer.from(Array.from({ length: 256 }, (_, byte) => byte));
  say("bytes", text(await one.xAdd("bytes", "1-1", { all })));
  say("bytes back", entries(await one.xRange(redis.commandOptions({ returnBuffers: true }), "bytes", "-", "+")));
  say("together", texts(await Promise.all(
    [one.xAdd("jobs", "20-0", { f: "v" }), one.xAdd("jobs", "21-0", { f: "v" }), one.xLen("jobs")])));
  const next = { key: "jobs", id: ">" };
  say("two reads on", firstStream(await two.xReadGroup("workers", "two", next, { NOACK: true })));
  say("nothing new", firstStream(await two.xReadGroup("workers", "two", next, { BLOCK: 10 })));
  say("remove consumer", await one.xGroupDelConsumer("jobs", "workers", "two"));
  say("destroy", Number(await one.xGroupDestroy("jobs", "workers")));
  say("drop", await one.del("jobs"));
  say("drop bytes", await one.del("bytes"));
}

async function main(port) {
  const open = async () => {
    const client = redis.createClient({ socket: { host: "127.0.0.1", port: Number(port) } });
    client.on("error", (error) => { throw error; });
    await client.connect();
    return client;
  };
  const one = await open();
  const two = await open();
  await produceAndRead(one, two);
  await claimAndTrim(one, two);
  await endAll(one, two);
  await one.quit();
  await two.quit();
}

main(process.argv[2]);
