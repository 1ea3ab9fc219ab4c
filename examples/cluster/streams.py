"""What put.py and get.py share: the words of their command lines, and a stream of Redis that is tried again where it goes away."""
import argparse
import os
import sys
import time

sys.dont_write_bytecode = True
from output import name, say, seconds  # noqa: E402 # first, so that Ctrl-C is quiet from here on

try:
    import redis  # noqa: E402
except ImportError:
    redis = None  # so that --help is printed all the same

sys.path.insert(0, os.path.join(os.path.dirname(os.path.abspath(__file__)), "..", "client"))
from justmeadow import turns  # noqa: E402

GONE = (redis.ConnectionError, redis.TimeoutError, redis.exceptions.ReadOnlyError) if redis else ()


def store(url):
    """A word of a command line: the Redis at a URL."""
    if not redis:
        raise argparse.ArgumentTypeError("there is no module `redis` here: it is Debian's python3-redis")
    try:
        found = redis.Redis.from_url(url, socket_timeout=30, socket_connect_timeout=5)
        found.connection_pool.make_connection()  # which doesn't connect yet
    except (ValueError, TypeError) as error:
        raise argparse.ArgumentTypeError(f"no URL of a Redis: {error}") from error
    return found


def arguments(text):
    words = argparse.ArgumentParser(description=text, formatter_class=argparse.RawDescriptionHelpFormatter)
    words.add_argument("key", help="of the stream")
    words.add_argument("--redis", type=store, default="redis://127.0.0.1:6379", metavar="URL")
    words.add_argument("--patience", type=seconds, default=30.0, metavar="SECONDS", help="how long Redis may be away at the start")
    return words


class Stream:
    """A stream, which is there within `patience` seconds."""

    def __init__(self, words):
        self.key, self.redis = words.key, words.redis
        self._try(self.redis.ping, time.monotonic() + words.patience)

    def call(self, function):
        """What the function returns, which may be called twice: it is called again for as long as Redis is away."""
        return self._try(function, float("inf"))

    def _try(self, function, until):
        fault = None
        for _ in turns(until):
            try:
                return function()
            except GONE as error:
                if fault is None:
                    say(f"Redis is away, trying again: {error}")
                fault = error
            except redis.RedisError as error:
                sys.exit(f"{name()}: Redis refuses: {error}")
        return sys.exit(f"{name()}: no Redis in time: {fault}")
