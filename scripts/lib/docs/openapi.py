"""The examples of docs/openapi.yaml, sent to a relay, and its statuses.

Each example is sent in the order of the page, and status, headers and body are compared; then each
status that docs/FORMATS.md has for a request has to be in the page. It needs python3 with yaml
(Debian: `apt-get install python3-yaml`).
Usage: scripts/docs openapi RELAYD
"""
import http.client
import re
import sys
import tempfile

from lib.command import ROOT, program_of
from lib.formats import part_from
from lib.serving import Relay

try:
    import yaml
except ImportError:
    sys.exit("docs openapi: there is no yaml for python3 (apt-get install python3-yaml)")

METHODS = ("put", "post", "get")


def examples_of(page):
    """Each example with its method and the answers that its operation may have."""
    for path, item in page["paths"].items():
        for method, operation in item.items():
            if method in METHODS:
                for example in operation["x-examples"]:
                    yield path, method.upper(), operation["responses"], example


def is_of(path, asked):
    return re.fullmatch(re.sub(r"\{\w+\}", "[^/]*", path), asked) is not None


def ask(port, method, example):
    connection = http.client.HTTPConnection("127.0.0.1", port, timeout=30)
    body = "x" * example["bytes"] if "bytes" in example else example.get("body")
    connection.request(method, example["path"], body, {"webhook-id": example["id"]} if "id" in example else {})
    answer = connection.getresponse()
    return answer.status, answer.headers, answer.read().decode()


def faults_of(port, path, method, responses, example):
    """What is wrong with the answer to an example."""
    status, headers, body = ask(port, method, example)
    wanted = re.escape(example["answer"]).replace("MOMENT", r"\d+")
    if status != example["status"] or not re.fullmatch(wanted, body):
        yield f"answered {status} {body}"
    if headers["content-type"] != "application/json" or headers["connection"] != "close":
        yield f"headers {dict(headers)}"
    if (headers["retry-after"] == "1") != (status == 503):
        yield f"retry-after {headers['retry-after']}"
    if str(example["status"]) not in responses or not is_of(path, example["path"]):
        yield "the page has no such answer"


def statuses():
    """The statuses that FORMATS has for requests."""
    return set(re.findall(r"(?<![\d,])([245]\d\d)\b", part_from("## HTTP", "## Posts")))


def main():
    relayd = program_of(__doc__)
    page = yaml.safe_load((ROOT / "docs" / "openapi.yaml").read_text())
    passed = failed = 0
    with tempfile.TemporaryDirectory() as folder:
        relay = Relay(relayd, f"{folder}/relay.db")
        for path, method, responses, example in examples_of(page):
            faults = list(faults_of(relay.address[1], path, method, responses, example))
            passed += not faults
            failed += bool(faults)
            for fault in faults:
                print(f"FAILED {method} {example}: {fault}")
        relay.kill()
    told = {it for item in page["paths"].values() for method in METHODS if method in item for it in item[method]["responses"]}
    formats = statuses()
    for status in sorted(formats | told):
        holds = status in told and status in formats
        passed += holds
        failed += not holds
        if not holds:
            print(f"FAILED: status {status} stands in {'the page' if status in told else 'FORMATS'} alone")
    print(f"{passed} passed, {failed} failed")
    return 1 if failed else 0
