"""usage: /usr/bin/python3 redis_py.py HOST:PORT ROUNDS"""

import logging
import sys

from redis_py_adapter import Cluster


def main(address, rounds):
    # redis-py logs each redirection and each repetition as an error.
    logging.getLogger("redis.cluster").setLevel(logging.CRITICAL)
    host, port = address.split(":")
    cluster = Cluster(host, int(port), decode_responses=True)
    for number in range(1, int(rounds) + 1):
        for user in range(8):
            cluster.incr(f"{{redis_py:{user}}}:counter")
            cluster.hset(f"{{redis_py:{user}}}:session", "page", f"/{number}")
            cluster.hincrby(f"{{redis_py:{user}}}:session", "visits", 1)
    for user in range(8):
        counter = cluster.get(f"{{redis_py:{user}}}:counter")
        session = cluster.hgetall(f"{{redis_py:{user}}}:session")
        print(f"redis_py:{user} counter {counter} visits {session['visits']} page {session['page']}")


if __name__ == "__main__":
    main(*sys.argv[1:])
