#!/usr/bin/env python3
"""Peers for the examples: starts a program for each client of a Unix socket, as socat does.

    serve.py FOLDER PROGRAM..

The socket of a PROGRAM is FOLDER/NAME, NAME being the program's own; it is the input and the output of what is started.
"""

import os
import socketserver
import subprocess
import sys
import threading


class Start(socketserver.BaseRequestHandler):
    def handle(self):
        subprocess.run([self.server.program], stdin=self.request, stdout=self.request, check=False)


class Server(socketserver.ThreadingMixIn, socketserver.UnixStreamServer):
    daemon_threads = True
    request_queue_size = 100


def main(folder, *programs):
    for program in programs:
        server = Server(os.path.join(folder, os.path.basename(program)), Start)
        server.program = program
        threading.Thread(target=server.serve_forever).start()


if __name__ == "__main__":
    main(*sys.argv[1:])
