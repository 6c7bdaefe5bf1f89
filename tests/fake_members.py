"""Fake members: each answers requests for lists and peers as a test arranged, at its own address.

It is imported by the stories of tests/status.py, and not run by itself. docs/PROTOCOL.md has what a member answers.
"""

import socket
import threading
import time

import frames


class FakeMember:
    """Answers in a `with` block. `held` and `peers` are the lines of its two answers; with None it does not answer.
    `ahead` is how far its clock is ahead of this machine's, in seconds. `meddle` changes a right answer into the one
    that is sent.
    """

    def __init__(self, address, port, held, peers, key=None, ahead=0.0, meddle=lambda answer: [answer]):
        self.address = address
        self.texts = {"CLst": held, "Peer": peers}
        self.key = key
        self.ahead = ahead
        self.meddle = meddle
        self.asked = 0
        family = socket.AF_INET6 if ":" in address else socket.AF_INET
        self.socket = socket.socket(family, socket.SOCK_DGRAM)
        self.socket.bind((address, port))
        self.thread = threading.Thread(target=self.serve, daemon=True)

    def __enter__(self):
        self.thread.start()
        return self

    def __exit__(self, *_):
        # (an empty datagram to itself ends the thread)
        self.socket.sendto(b"", self.socket.getsockname())
        self.thread.join()
        self.socket.close()

    def serve(self):
        while True:
            request, asker = self.socket.recvfrom(frames.FRAME_BYTES + 1)
            if not request:
                return
            self.asked += 1
            for answer in self.answers(request):
                self.socket.sendto(answer, asker)

    def answers(self, request):
        """Returns the datagrams that are sent to the client that asks this."""
        head = frames.Head.read(request)
        letters = next(each for each in self.texts if frames.code(each) == head.cmd)
        # (a member accepts a client's request only in the form that docs/PROTOCOL.md has)
        assert request == frames.sealed(self.key, letters, request=head.request, secs=head.secs, usecs=head.usecs)
        lines = self.texts[letters]
        if lines is None:
            return []
        millis = int((time.time() + self.ahead) * 1000)
        body = "".join(line + "\n" for line in lines).encode()
        fields = {"sender": frames.member_id(self.address), "request": head.request, **frames.clock_fields(millis)}
        return self.meddle(frames.sealed(self.key, frames.ANSWER_TO[letters], body, **fields))
