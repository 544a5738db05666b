"""clients.py PORT: ordinary programs by redis-py against a server that is empty."""

import sys
import threading
import time

sys.dont_write_bytecode = True

import redis


def transfers(store):
    """Eight threads move one of a hundred from an account to the other, by WATCH and EXEC, which fails where another was first."""
    store.set("from", 100)

    def move(pipe):
        left = int(pipe.get("from"))
        pipe.multi()
        pipe.set("from", left - 1, ex=600)
        pipe.incr("to")

    def work():
        for _ in range(10):
            store.transaction(move, "from")

    threads = [threading.Thread(target=work) for _ in range(8)]
    for step in (threading.Thread.start, threading.Thread.join):
        for thread in threads:
            step(thread)
    with store.pipeline() as pipe:
        assert pipe.get("from").get("to").delete("from", "to").execute() == ["20", "80", 2]
    with store.pipeline() as pipe:
        pipe.set("balance", 100).execute_command("NOTHING").decrby("balance", 30)
        try:
            pipe.execute()
            sys.exit("clients.py: a transaction with an unknown command is done")
        except redis.ResponseError:
            assert store.getdel("balance") is None


def many(store):
    """A pipeline, and all names by SCAN."""
    with store.pipeline(transaction=False) as pipe:
        for at in range(5_000):
            pipe.set(f"many:{at}", at, ex=600)
        assert pipe.execute() == [True] * 5_000
    assert store.dbsize() == 5_000 and store.mget("many:7", "none", "many:4999") == ["7", None, "4999"]
    wanted = {f"many:{at}" for at in range(5_000)}
    assert set(store.scan_iter(count=100)) == wanted
    assert set(store.scan_iter("many:4??")) == {it for it in wanted if it.startswith("many:4") and len(it) == 8}
    assert store.flushdb() and store.dbsize() == 0


def itself(store):
    """What a client asks of its connection and of the server."""
    assert store.client_setname("clients.py") and store.client_getname() == "clients.py" and store.client_id() > 0
    assert store.config_get("max*")["maxclients"] and store.ping() and store.echo("text") == "text"
    assert abs(store.time()[0] - time.time()) < 600
    other = redis.Redis(port=store.connection_pool.connection_kwargs["port"], client_name="other", decode_responses=True)
    assert other.client_getname() == "other"
    id = str(other.client_id())
    assert [it["name"] for it in store.client_list(client_id=[id])] == ["other"]
    assert {(it["id"], it["name"]) for it in store.client_list()} >= {(id, "other"), (str(store.client_id()), "clients.py")}
    connection = other.connection_pool.get_connection("PING")
    assert store.client_kill_filter(_id=id) == 1 and store.client_kill_filter(_id=id) == 0
    # Its thread closes it.
    assert connection._sock.recv(1) == b"" and all(it["name"] != "other" for it in store.client_list())
    told = store.info()
    assert told["redis_version"] and told["connected_clients"] >= 1


def main():
    port = int(sys.argv[1])
    store = redis.Redis(port=port, decode_responses=True)
    assert store.dbsize() == 0
    for program in (transfers, many, itself):
        program(store)
    print(f"clients.py: the programs of redis-py {redis.__version__} are served")


if __name__ == "__main__":
    main()
