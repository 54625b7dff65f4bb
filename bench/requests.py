#!/usr/bin/env python3
# SPDX-License-Identifier: Apache-2.0
"""Writes a log of requests of one day to standard output, as records with a header: COUNT of them, the same ones each time.

  bench/requests.py COUNT

They are sorted by time. Most requests of an hour come from a few clients, and a few of them fail.
"""
import random, sys

PATHS = ("/", "/search?q=a,b", "/map", "/login", '/say?"hello"', "/towns/Oslo", "/towns/Zürich")


def field(text):
    return f'''"{text.replace('"', '""')}"''' if set(text) & set(',"') else text


def main():
    count = int(sys.argv[1])
    chance = random.Random(7)
    output = open(sys.stdout.fileno(), "w", encoding="utf-8", newline="\n")
    output.write("time,client,method,path,status,bytes,user\n")
    for place in range(count):
        second = place * 86_400 // count
        hour, minute = second // 3600, second // 60 % 60
        client = f"10.{hour}.{chance.randrange(4)}.{chance.randrange(200)}"
        failing = 0.2 if (hour, minute) == (14, 5) else 0.001
        status = 500 if chance.random() < failing else chance.choice((200, 200, 200, 304, 404))
        size = "" if status == 304 else chance.randrange(100, 100_000)
        user = "" if chance.random() < 0.7 else f"user{chance.randrange(500)}"
        output.write(f"2026-03-01T{hour:02}:{minute:02}:{second % 60:02}Z,{client},{chance.choice(('GET', 'GET', 'POST'))},{field(chance.choice(PATHS))},{status},{size},{user}\n")
    output.close()


if __name__ == "__main__":
    main()
