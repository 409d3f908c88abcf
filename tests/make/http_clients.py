#!/usr/bin/env python3
"""http_clients.py: what clients of HTTP/1.1 send. Answers curl, wrk and Python's http.client on a port of loopback, each with
two requests where it can, and prints the bytes of each connection as a line of the table http-request of crates/acceptance/stdin
(its last column is worked out by tables.py). A client that is not installed is named and passed over. Nothing runs this by
itself: versions differ in what they send, and the lines that were printed once are kept.
"""
import http.client
import shutil
import socket
import subprocess
import sys
import threading

PATH = "/nchf-convergedcharging/v3/chargingdata"
BODY = '{"invocationSequenceNumber":1}'
ANSWER = b"HTTP/1.1 204 No Content\r\n\r\n"


def length_of(head):
    """The length that a head says, 0 where it says none."""
    for line in head.split(b"\r\n")[1:]:
        name, _, value = line.partition(b":")
        if name.lower() == b"content-length":
            return int(value)
    return 0


def take_message(connection, held):
    """Reads one message behind the bytes held, and gives all bytes so far and the message's end, or none at the end."""
    at = len(held)
    while b"\r\n\r\n" not in held[at:]:
        more = connection.recv(65536)
        if not more:
            return held, None
        held += more
    end = held.index(b"\r\n\r\n", at) + 4
    end += length_of(held[at:end])
    while len(held) < end:
        held += connection.recv(65536)
    return held, end


def serve(listener, kept, most):
    """Answers up to so many messages of the first connection that brings one, and keeps the bytes that came."""
    held = b""
    while not held:
        connection, _ = listener.accept()
        with connection:
            for _ in range(most):
                held, end = take_message(connection, held)
                if end is None:
                    break
                connection.sendall(ANSWER)
    kept.append(held)


def curl(port):
    url = f"http://127.0.0.1:{port}{PATH}"
    words = ["curl", "-s", "--http1.1", "-X", "POST", "-H", "Content-Type: application/json", "-d", BODY]
    subprocess.run(words + [url, "--next", *words[1:], url + "/1/update"], check=True, stdout=subprocess.DEVNULL)


def wrk(port):
    subprocess.run(["wrk", "-t1", "-c1", "-d1s", f"http://127.0.0.1:{port}{PATH}/1"], check=False, stdout=subprocess.DEVNULL)


def http_client(port):
    connection = http.client.HTTPConnection("127.0.0.1", port)
    for path, body in ((PATH, BODY), (PATH + "/1/release", BODY * 2)):
        connection.request("POST", path, body, {"Content-Type": "application/json"})
        connection.getresponse().read()
    connection.close()


def main():
    for name, client in (("curl", curl), ("wrk", wrk), ("http.client", http_client)):
        if name != "http.client" and not shutil.which(name):
            print(f"{name} is not installed", file=sys.stderr)
            continue
        kept = []
        with socket.create_server(("127.0.0.1", 0)) as listener:
            server = threading.Thread(target=serve, args=(listener, kept, 2))
            server.start()
            client(listener.getsockname()[1])
            server.join()
        print(f"http-request\t{kept[0].hex().upper()}\t")


main()
