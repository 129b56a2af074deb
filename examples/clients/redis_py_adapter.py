"""redis-py for a cluster without INFO and COMMAND: slots come from CLUSTER SLOTS, places of keys from a table."""

from redis import Redis
from redis.cluster import ClusterNode, RedisCluster, cleanup_kwargs

ONE_KEY = """
    get strlen type set setnx getset append getdel incr decr incrby
    hget hmget hexists hstrlen hlen hkeys hvals hgetall hset hsetnx hincrby hdel
""".split()
# The place of a command's last key, from the end where it is negative, and how far its keys are apart. The first key is at 1.
PLACES = {**{name: (1, 1) for name in ONE_KEY}, "mget": (-1, 1), "exists": (-1, 1), "del": (-1, 1), "mset": (-1, 2)}
COMMANDS = {
    name: {"name": name, "flags": [], "first_key_pos": 1, "last_key_pos": last, "step_count": step}
    for name, (last, step) in PLACES.items()
}


class StartNode(Redis):
    """The node that is asked for the slots, at the start and when some have moved."""

    def info(self, *_sections, **_options):
        return {"cluster_enabled": 1}


class Cluster(RedisCluster):
    def __init__(self, host, port, **options):
        node = ClusterNode(host, port, redis_connection=StartNode(host, port, **cleanup_kwargs(**options)))
        super().__init__(startup_nodes=[node], dynamic_startup_nodes=False, **options)

    def execute_command(self, *words, **options):
        if words[0] == "COMMAND":
            return COMMANDS
        return super().execute_command(*words, **options)
