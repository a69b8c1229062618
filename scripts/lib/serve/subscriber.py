"""Stands in for a subscriber: answers each post 200, and prints it.

It listens on this machine at a port, and says so. Then it prints of each post the id, the body and
whether it is signed. The secret is that of the examples if none is given.
Usage: scripts/serve subscriber PORT [SECRET]
"""
import sys
import threading

from lib.command import end_with_usage
from lib.serving import SECRET, Subscriber


def main():
    if len(sys.argv) not in (2, 3):
        end_with_usage(__doc__)
    secret = sys.argv[2] if len(sys.argv) == 3 else SECRET

    def reply(post):
        told = "signed" if post.is_signed_by(secret) else "not signed by this secret"
        print(f"{post.header('webhook-id')} {post.body.decode(errors='replace')} {told}", flush=True)
        return 200

    subscriber = Subscriber(reply, int(sys.argv[1]))
    print(f"listening on 127.0.0.1:{subscriber.port}", flush=True)
    threading.Event().wait()
