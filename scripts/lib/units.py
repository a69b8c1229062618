#!/usr/bin/env python3
"""Stands for systemctl in a root where systemd doesn't run, as a chroot: it starts what the ExecStart lines of a unit say, as the unit's user, in its folder
and with its environment. What a service prints goes into /run/units/NAME.log. A timer starts nothing: `start` its service. What only systemd can do (limits,
protection, restarts) isn't done.
Usage: systemctl start|restart|reload|enable [--now] UNIT..
"""
import os
import pathlib
import pwd
import re
import shlex
import signal
import subprocess
import sys
import time

FOLDERS = ("/etc/systemd/system", "/usr/lib/systemd/system", "/lib/systemd/system")
RUN = pathlib.Path("/run/units")


class Unit:
    """The lines of a unit, and of what is dropped in beside it."""

    def __init__(self, name):
        self.name = name if "." in name else f"{name}.service"
        files = [it for folder in FOLDERS if (it := pathlib.Path(folder, self.name)).exists()][:1]
        if not files:
            sys.exit(f"Unit {self.name} could not be found.")
        files += [it for folder in FOLDERS for it in sorted(pathlib.Path(folder, f"{self.name}.d").glob("*.conf"))]
        self.lines = {}
        for line in "\n".join(it.read_text() for it in files).replace("\\\n", " ").split("\n"):
            key, equals, value = line.partition("=")
            if equals and not line.startswith(("#", ";")):
                values = self.lines.setdefault(key.strip(), [])
                values[:] = [*values, value.strip()] if value.strip() else []

    def one(self, key, default=None):
        return self.lines.get(key, [default])[-1]

    def environment(self):
        pairs = [it for line in self.lines.get("Environment", []) for it in shlex.split(line)]
        for file in self.lines.get("EnvironmentFile", []):
            path = pathlib.Path(file.removeprefix("-"))
            if path.exists() or not file.startswith("-"):
                pairs += [it for line in path.read_text().split("\n") if not line.startswith(("#", ";")) for it in shlex.split(line)]
        return {"PATH": os.environ["PATH"], **dict(it.split("=", 1) for it in pairs)}

    def words(self, line):
        """The words of an ExecStart line: `$NAME` alone is split at spaces, `${NAME}` is not."""
        values, words = self.environment(), []
        for word in shlex.split(line.lstrip("-+!@:")):
            if re.fullmatch(r"\$[A-Z_a-z]\w*", word):
                words += values.get(word[1:], "").split()
            else:
                changed = re.sub(r"\$\$|\$\{(\w+)\}", lambda it: values.get(it[1], "") if it[1] else "$", word.replace("%%", "%"))
                words.append(changed)
        return words

    def user(self):
        """Whom it runs as."""
        name = self.one("User")
        found = pwd.getpwnam(name) if name else None
        return {"user": found.pw_uid, "group": found.pw_gid, "extra_groups": []} if found else {}

    def make_folders(self):
        for key, above in (("StateDirectory", "/var/lib"), ("RuntimeDirectory", "/run")):
            for name in self.one(key, "").split():
                place = pathlib.Path(above, name)
                place.mkdir(parents=True, exist_ok=True)
                if self.user():
                    os.chown(place, self.user()["user"], self.user()["group"])

    def run(self, key, log):
        """Runs the lines of a key one after another; what a service goes on with is left running."""
        goes_on = key == "ExecStart" and self.one("Type", "simple") in ("simple", "exec", "notify")
        for line in self.lines.get(key, []):
            process = subprocess.Popen(self.words(line), stdin=subprocess.DEVNULL, stdout=log, stderr=log, env=self.environment(), start_new_session=True,
                                       cwd=self.one("WorkingDirectory", "/").removeprefix("-"), umask=int(self.one("UMask", "0022"), 8), **self.user())
            if goes_on:
                (RUN / f"{self.name}.pid").write_text(str(process.pid))
                time.sleep(1)
                return process.poll() or 0
            if process.wait() and not line.startswith("-"):
                return process.returncode
        return 0

    def pid(self):
        place = pathlib.Path(self.one("PIDFile") or RUN / f"{self.name}.pid")
        if place.exists() and pathlib.Path("/proc", place.read_text().strip() or "none").exists():
            return int(place.read_text())
        return None

    def start(self):
        if self.pid():
            return 0
        self.make_folders()
        with open(RUN / f"{self.name}.log", "a") as log:
            status = self.run("ExecStartPre", log) or self.run("ExecStart", log)
            if self.one("Type") == "oneshot":
                self.run("ExecStopPost", log)
        return status

    def stop(self):
        pid = self.pid()
        if pid:
            os.kill(pid, signal.SIGTERM)
        while pid and pathlib.Path("/proc", str(pid), "exe").exists():
            time.sleep(0.05)

    def reload(self):
        os.kill(self.pid(), signal.SIGHUP)
        return 0


def main():
    words = [it for it in sys.argv[1:] if not it.startswith("-")]
    RUN.mkdir(parents=True, exist_ok=True)
    if len(words) < 2 or words[0] not in ("start", "restart", "reload", "enable", "stop"):
        sys.exit(__doc__.rpartition("Usage: ")[2].strip())
    for unit in map(Unit, words[1:]):
        if words[0] in ("restart", "stop"):
            unit.stop()
        starts = words[0] in ("start", "restart") or words[0] == "enable" and "--now" in sys.argv
        status = unit.reload() if words[0] == "reload" else unit.start() if starts and not unit.name.endswith(".timer") else 0
        if status:
            sys.exit(f"Job for {unit.name} failed with status {status}; see /run/units/{unit.name}.log.")


if __name__ == "__main__":
    main()
