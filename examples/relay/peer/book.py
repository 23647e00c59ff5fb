"""What was asked and what its answer is: the measure of every delivery.

A test writes down a request's payload with its answer before it asks.
Publishers look the answer up by the payload that reached them, so a changed
request is found here; the asker compares the page with the book, so a changed
or strange answer is found there.
"""

import os

# Four zero bytes in front: never one of the protocol's header values.
SAFE = bytes(4)


def noise(size):
    """So many bytes, random behind the safe beginning."""
    return SAFE[:size] + os.urandom(max(0, size - 4))


class Book:
    def __init__(self):
        self.answers = {}
        self.where = {}        # which publisher answered a request
        self.spoilt = set()    # requests whose answer was sent damaged
        self.unknown = []      # requests that nobody wrote down
        self.wrong = []        # answers that no publisher gave, or to another
        self.verdicts = {}     # request to True if its right page came, else False
        self.pages = self.errors = self.nothing = 0

    def put(self, payload, answer):
        self.answers[payload] = answer

    def request(self, size=40, answer_size=40):
        """A fresh request, written down with a fresh answer."""
        payload = noise(size)
        self.put(payload, noise(answer_size))
        return payload

    def look_up(self, payload):
        if payload not in self.answers:
            self.unknown.append(payload)
            return b"\0\0\0\0unknown request"
        return self.answers[payload]

    def is_right(self, payload, page):
        return payload not in self.spoilt and page == self.answers[payload]

    def judge(self, payload, answer):
        """Counts what came; True for the right page."""
        right = False
        if answer is None:
            self.nothing += 1
        elif answer.page is None:
            self.errors += 1
        elif self.is_right(payload, answer.page):
            self.pages += 1
            right = True
        else:
            self.wrong.append((payload, answer.page))
        self.verdicts[payload] = right
        return right
