"""Programs of the pages in several languages."""
import os
import re


def programs_in(page):
    """The program of each language that a page has."""
    return dict(re.findall(r"```(\w+)\n(.*?)```", page.read_text(), re.S))


def with_go(folder):
    """The environment in which Go builds a program of one file, with nothing fetched."""
    return {**os.environ, "GOTOOLCHAIN": "local", "GOPROXY": "off", "GOFLAGS": "", "GOCACHE": str(folder / "cache"), "HOME": str(folder)}
