"""The programs of a run of bench/run, built where they have to be."""

import os
import pathlib
import shutil
import subprocess
import sys

BENCH = pathlib.Path(__file__).resolve().parent
TOP = BENCH.parent


class Missing(Exception):
    """Something that a measure needs isn't there."""


class Failed(Missing):
    """A program or a load generator failed."""


class Programs:
    """The programs of a run, built where they have to be. A path that can't be had raises Missing."""

    def __init__(self, options, work):
        self.work = work
        self.given = {"hub": options.program, "layers": options.layers}
        self.found = {}

    def get(self, name):
        if name not in self.found:
            try:
                self.found[name] = getattr(self, name)()
            except Missing as why:
                self.found[name] = why
        if isinstance(self.found[name], Missing):
            raise self.found[name]
        return self.found[name]

    def compiled(self, compiler, words, name):
        if shutil.which(compiler) is None:
            raise Missing(f"no {compiler} on the path")
        out = f"{self.work}/{name}"
        made = subprocess.run([compiler, *words, "-o", out], capture_output=True, text=True)
        if made.returncode != 0:
            raise Failed(f"{compiler} failed on {name}: {made.stderr.strip()[-200:]}")
        return out

    def c(self, name, *more):
        files = [str(BENCH / file) for file in (f"{name}.c", *more)]
        return self.compiled("gcc", ["-O2", "-pthread", *files], name)

    def ask(self):
        return self.c("ask", "common.c")

    def feed(self):
        return self.c("feed", "common.c")

    def idle(self):
        return self.c("idle", "common.c")

    def naps(self):
        return self.c("naps", "common.c")

    def wake(self):
        return self.c("wake", "common.c")

    def sleepers(self):
        return self.c("sleepers", "common.c")

    def fan(self):
        return self.c("fan", "common.c")

    def crowd(self):
        return self.c("crowd", "common.c")

    def turns(self):
        return self.compiled("rustc", ["--edition", "2024", "-O", str(BENCH / "turns.rs")], "turns")

    def ftrig(self):
        if shutil.which("s6-ftrig-wait") is None:
            raise Missing("no s6-ftrig-wait on the path (Debian: apt-get install s6)")
        return "s6-ftrig-wait"

    def ok_server(self):
        return self.c("ok_server")

    def plain(self):
        main = str(BENCH / "plain_hub" / "main.rs")
        return self.compiled("rustc", ["--edition", "2024", "-O", main], "plain_hub")

    def redis(self):
        path = shutil.which("redis-server")
        if path is None:
            raise Missing("no redis-server on the path (Debian: apt-get install redis-server)")
        return path

    def nats(self):
        path = shutil.which("nats-server", path=f"{os.environ['PATH']}:/usr/sbin")
        if path is None:
            raise Missing("no nats-server on the path (Debian: apt-get install nats-server)")
        return path

    def mosquitto(self):
        path = shutil.which("mosquitto", path=f"{os.environ['PATH']}:/usr/sbin")
        if path is None:
            raise Missing("no mosquitto on the path (Debian: apt-get install mosquitto)")
        # (it warns each time if it is run as root)
        quiet = pathlib.Path(f"{self.work}/mosquitto")
        quiet.write_text(f'#!/bin/sh\nexec {path} "$@" 2>/dev/null\n', encoding="utf-8")
        quiet.chmod(0o700)
        return str(quiet)

    def hub(self):
        if self.given["hub"]:
            return os.path.abspath(self.given["hub"])
        say("asking for ftrighub, which is proved and built first where it isn't up to date")
        return built([TOP / "ftrighub", "--prove"], TOP, TOP / "out" / "ftrighub")

    def layers(self):
        if self.given["layers"]:
            return os.path.abspath(self.given["layers"])
        if shutil.which("rt") is None:
            raise Missing("hub_bench needs the Rattle toolchain, and there is no rt on the path")
        say("asking for hub_bench, which is proved and built first where it isn't up to date")
        folder = TOP / "crates" / "hub_bench"
        return built(["rt", "run"], folder, folder / "out" / "hub_bench")

    def serve(self):
        hub = self.get("hub")
        if subprocess.run([hub, "serve", "--help"], capture_output=True).returncode != 0:
            raise Missing("this ftrighub has no subcommand serve")
        return hub


def built(words, folder, program):
    """The program, after a command that builds it."""
    done = subprocess.run(words, cwd=folder, stdin=subprocess.DEVNULL, stdout=subprocess.DEVNULL,
                          stderr=subprocess.DEVNULL)
    if done.returncode != 0 or not program.is_file():
        raise Failed(f"{program.name} could not be built")
    return str(program)


def say(text):
    print(f"bench: {text}", file=sys.stderr, flush=True)
