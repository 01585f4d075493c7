#!/usr/bin/env python3
"""Writes the logs of two web servers into this folder, front1.log and front2.log: twelve minutes, the same each time.

Each line is of the combined form, with the host in front. In the ninth minute `api` gets many times its requests; and
front2 writes two lines of `shop` five minutes late.
"""
import os

HERE = os.path.dirname(os.path.abspath(__file__))
HOSTS = (("shop", 7), ("api", 5), ("blog", 2))
LINE = '%s 10.0.0.%d - - [28/Nov/2026:10:%02d:%02d +0000] "GET %s HTTP/1.1" 200 %d "-" "curl/8"\n'


def requests(front: int, minute: int) -> list[tuple[int, str]]:
    """The requests of one minute: second and host."""
    found = []
    for host, usual in HOSTS:
        many = 60 if host == "api" and minute == 8 else usual + (minute * 2 + front) % 3
        found += [((n * 37 + minute * 11 + front * 5) % 60, host) for n in range(many)]
    return sorted(found)


def line(host: str, minute: int, second: int) -> str:
    """A line of the log."""
    return LINE % (host, second % 9 + 1, minute, second, "/" if second % 3 else "/list", 200 + second * 7)


def main() -> None:
    for front in (1, 2):
        with open(os.path.join(HERE, "front%d.log" % front), "w") as out:
            for minute in range(12):
                for second, host in requests(front, minute):
                    out.write(line(host, minute, second))
                if front == 2 and minute == 6:
                    out.write(line("shop", 1, 30) + line("shop", 1, 45))


if __name__ == "__main__":
    main()
