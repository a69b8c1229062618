"""The verifiers of docs/SUBSCRIBERS.md, in each language that this machine has.

Each is tried on the post that the page shows, on one of two signatures, and on posts of which one
thing is changed or missing, which it has to refuse without a fault. A language that isn't here (Debian: nodejs, golang-go,
openssl) is named and not counted.
Usage: scripts/docs subscribers
"""
import json
import os
import pathlib
import shlex
import shutil
import subprocess
import sys
import tempfile

from lib.command import ROOT
from lib.languages import programs_in, with_go
from lib.serving import SECRET

PAGE = ROOT / "docs" / "SUBSCRIBERS.md"
GENUINE = {"id": "msg_1", "timestamp": "1000", "signature": "v1,GKF3aN8xMQSpghefDbSmk9+eCdpTNFic/YVa+x7zfqI=", "body": "{}", "secret": SECRET}
SECONDS = 300
OTHER = "v1," + "A" * 43 + "="
CASES = [
    (GENUINE, True),
    ({**GENUINE, "signature": f"{OTHER} {GENUINE['signature']}"}, True),
    ({**GENUINE, "body": "[]"}, False),
    ({**GENUINE, "id": "msg_2"}, False),
    ({**GENUINE, "timestamp": "1001"}, False),
    ({**GENUINE, "signature": OTHER}, False),
    ({**GENUINE, "secret": "whsec_" + "A" * 32}, False),
    ({**GENUINE, "signature": "v1," + "\u00e9" * 44}, False),
    *(({name: it for name, it in GENUINE.items() if name != missing}, False) for missing in ("id", "timestamp", "signature")),
]
PYTHON = "\nimport json, sys\nc = json.load(sys.stdin)\nh = {'webhook-' + k: c[k] for k in ('id', 'timestamp', 'signature') if k in c}\n" \
    "print('genuine' if verifies(c['secret'], h, c['body'].encode()) else 'not genuine')\n"
NODE = "\nconst c = JSON.parse(require('node:fs').readFileSync(0));\nconst h = Object.fromEntries(['id', 'timestamp', 'signature'].filter((k) => k in c).map((k) => " \
    "['webhook-' + k, c[k]]));\nconsole.log(verifies(c.secret, h, Buffer.from(c.body)) ? 'genuine' : 'not genuine');\n"
GO = 'package main\n\nimport (\n\t"crypto/hmac"\n\t"crypto/sha256"\n\t"encoding/base64"\n\t"encoding/json"\n\t"fmt"\n\t"net/http"\n\t"os"\n\t"strings"\n)\n\n'
GO_MAIN = '\nfunc main() {\n\tvar c map[string]string\n\tjson.NewDecoder(os.Stdin).Decode(&c)\n\th := http.Header{}\n\tfor _, k := range []string{"id", ' \
    '"timestamp", "signature"} {\n\t\th.Set("webhook-"+k, c[k])\n\t}\n\tif verifies(c["secret"], h, []byte(c["body"])) {\n\t\tfmt.Println("genuine")\n\t} else ' \
    '{\n\t\tfmt.Println("not genuine")\n\t}\n}\n'


def verifiers(page, folder):
    """Of each language the words that run its verifier, or None where its program isn't here."""
    blocks = programs_in(page)
    (folder / "verify.py").write_text(blocks["python"] + PYTHON)
    (folder / "verify.js").write_text(blocks["javascript"] + NODE)
    (folder / "verify.go").write_text(GO + blocks["go"] + GO_MAIN)
    (folder / "verify.sh").write_text(blocks["sh"])
    yield "python", [sys.executable, "verify.py"]
    yield "node", ["node", "verify.js"] if shutil.which("node") else None
    yield "go", go_program(folder) if shutil.which("go") else None
    yield "sh", ["sh", "verify.sh"] if shutil.which("openssl") else None


def go_program(folder):
    """The verifier in Go, built once, with nothing fetched."""
    done = subprocess.run(["go", "build", "-o", "verify", "verify.go"], cwd=folder, env=with_go(folder), capture_output=True, text=True, timeout=SECONDS)
    return [str(folder / "verify")] if done.returncode == 0 else ["sh", "-c", f"echo {shlex.quote(done.stderr)}"]


def judge(words, case, folder):
    (folder / "body").write_text(case["body"])
    names = {it.upper(): case.get(it, "") for it in ("id", "timestamp", "signature", "secret")}
    how = {"cwd": folder, "input": json.dumps(case), "capture_output": True, "text": True, "env": {**os.environ, **names}}
    told = subprocess.run(words, timeout=SECONDS, **how)
    return told.stdout.strip() or told.stderr.strip()


def main():
    passed = failed = 0
    with tempfile.TemporaryDirectory() as name:
        folder = pathlib.Path(name)
        for language, words in verifiers(PAGE, folder):
            if words is None:
                print(f"{language}: not on this machine")
                continue
            for case, is_genuine in CASES:
                told = judge(words, case, folder)
                if told == ("genuine" if is_genuine else "not genuine"):
                    passed += 1
                else:
                    failed += 1
                    print(f"FAILED {language}: {case}: {told}")
    print(f"{passed} passed, {failed} failed")
    return 1 if failed else 0
