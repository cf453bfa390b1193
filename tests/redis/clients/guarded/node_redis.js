// A queue by node-redis, behind a name, a database, a password and transactions: node_redis.js PORT
"use strict";
const redis = require("redis");

async function work(queue) {
  await queue.connect();
  console.log(`name: ${await queue.sendCommand(["CLIENT", "GETNAME"])}`);
  console.log(`transaction: ${await queue.multi().xAdd("t", "1-0", { f: "v" }).xLen("t").exec()}`);
  await queue.xGroupCreate("jobs", "workers", "0", { MKSTREAM: true });
  const adding = queue.multi();
  for (let number = 0; number < 1000; number += 1) {
    adding.xAdd("jobs", "*", { number: String(number) });
  }
  await adding.exec();
  const done = new Set();
  for (;;) {
    const found = await queue.xReadGroup("workers", "one", { key: "jobs", id: ">" }, { COUNT: 100, BLOCK: 100 });
    if (found === null) {
      break;
    }
    const ending = queue.multi();
    for (const { id, message } of found[0].messages) {
      done.add(message.number);
      ending.xAck("jobs", "workers", id).xDel("jobs", id);
    }
    await ending.exec();
  }
  const { pending } = await queue.xPending("jobs", "workers");
  console.log(`done: ${done.size}, left: ${await queue.xLen("jobs")}, pending: ${pending}`);
  await queue.quit();
}

work(redis.createClient({ socket: { port: Number(process.argv[2]) }, name: "app", database: 0, password: "secret" }));
