"""Asks a service by redis-py (python3-redis): `client.py PORT`, with lines of words on standard input, of which those after an empty line
are sent together. It prints each reply."""

from __future__ import annotations

import sys
from typing import List

import redis

service = redis.Redis(port=int(sys.argv[1]), socket_timeout=30)


def told(words: List[str]) -> object:
    try:
        return service.execute_command(*words)
    except redis.ResponseError as error:
        return error


singly, _, together = sys.stdin.read().partition("\n\n")
for line in singly.splitlines():
    print(repr(told(line.split())))

pipeline = service.pipeline(transaction=False)
for line in together.splitlines():
    pipeline.execute_command(*line.split())
print(pipeline.execute())

# By the methods that programs call.
print(service.sadd("5", 40, 41), service.sismember("5", 40), service.smismember("5", [40, 42]), service.srem("5", 40, 42))
print(service.setnx(140, 1), service.set(140, 1, nx=True), service.set(141, "", nx=True), service.exists(140, 141, 142), service.delete(140, 142))
print(service.unlink(141), service.ping(), service.echo("text of four words"))
try:
    service.select(16)
except redis.ResponseError as error:
    print(error)
other = redis.Redis(port=int(sys.argv[1]), db=7, socket_timeout=30)
print(other.setnx(150, 1), other.exists(150), service.exists(150))
