#!/usr/bin/env python3
"""How long the program judges a large certificate, and how long `rebase` reads it, keeps all of it and writes it again; and the
most memory that it has while it does.

Draws a maximum cut with 66 variables in a scratch folder, solves it with three budgets of nodes, which writes certificates
of up to some million lines, and judges and keeps each. It asserts nothing.
"""

import argparse
import os
import subprocess
import tempfile

import networks
from kinds import KINDS, instance

TOP = os.path.dirname(os.path.dirname(os.path.abspath(__file__)))


def measure(*command):
    """The status of a run, its processor seconds, and the most memory that it had, in MiB."""
    process = subprocess.Popen(command, stdout=subprocess.DEVNULL)
    _, status, usage = os.wait4(process.pid, 0)
    return os.waitstatus_to_exitcode(status), usage.ru_utime + usage.ru_stime, usage.ru_maxrss / 1024


def tell(name, lines, status, seconds, memory):
    rate = lines / max(seconds, 0.01)
    print(f"  {name}: {seconds:.2f} processor seconds, {rate:,.0f} lines a second, {memory:,.0f} MiB at most, status {status}", flush=True)


def main():
    parser = argparse.ArgumentParser(description="Judges large certificates, and keeps all of them.")
    parser.add_argument("--wcspsolve", metavar="PATH", default=os.path.join(TOP, "wcspsolve"), help="the program")
    program = parser.parse_args().wcspsolve
    with tempfile.TemporaryDirectory() as scratch:
        network, certificate, again = (os.path.join(scratch, name) for name in ("network", "certificate", "again"))
        with open(network, "w", encoding="ascii") as file:
            networks.write(instance(KINDS["maxcut"], "large", 1).network("maxcut"), file)
        for budget in (5_000, 20_000, 80_000):
            command = [program, "solve", network, certificate, "--budget", str(budget)]
            subprocess.run(command, stdout=subprocess.DEVNULL, check=False)
            with open(certificate, "rb") as file:
                lines = sum(1 for _ in file)
            print(f"{lines:,} lines, {os.path.getsize(certificate) / 1e6:.1f} MB")
            tell("check", lines, *measure(program, "check", network, certificate))
            tell("rebase", lines, *measure(program, "rebase", network, certificate, again, "--budget", "0"))


if __name__ == "__main__":
    main()
