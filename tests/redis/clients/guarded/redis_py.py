"""A queue by redis-py, behind a name, a database, a password and transactions: redis_py.py PORT"""
import sys

import redis

queue = redis.Redis(port=int(sys.argv[1]), client_name="app", db=0, password="secret", decode_responses=True)
print(f"name: {queue.client_getname()}")
print(f"transaction: {queue.pipeline().xadd('t', {'f': 'v'}, id='1-0').xlen('t').execute()}")
queue.xgroup_create("jobs", "workers", id="0", mkstream=True)
adding = queue.pipeline()
for number in range(1000):
    adding.xadd("jobs", {"number": number})
adding.execute()
done = set()
while found := queue.xreadgroup("workers", "one", {"jobs": ">"}, count=100, block=100):
    ending = queue.pipeline()
    for identifier, fields in found[0][1]:
        done.add(fields["number"])
        ending.xack("jobs", "workers", identifier).xdel("jobs", identifier)
    ending.execute()
print(f"done: {len(done)}, left: {queue.xlen('jobs')}, pending: {queue.xpending('jobs', 'workers')['pending']}")
