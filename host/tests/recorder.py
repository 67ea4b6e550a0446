#!/usr/bin/env python3
"""Stands between a host and its bot: writes down what goes in and what comes out, and kills one of the two at each kind of answer once.

    recorder.py ANSWERS MARKS PUSH PROGRAM ARGUMENT..

ANSWERS gets a line for each answer, before the host has it. MARKS is a folder with a mark for each death, or `-` if nobody is to die. PUSH
is a command that runs before the host has the first order to stage, or `-`. A host of this tree has its bot `guard`, and an older one has
it `run`. Of other jobs it takes no note, nor of one over other records than the host's, by which it asks what a text of settings means.
"""
import json
import os
import signal
import subprocess
import sys


def is_first(marks, name):
    """Whether this comes for the first time. The mark stays when the process is gone."""
    if marks == "-":
        return False
    try:
        os.mkdir(os.path.join(marks, name))
    except FileExistsError:
        return False
    return True


def kind_of(delivery, answer):
    orders = [order["order"] for reply in answer for order in reply.get("orders", [])]
    return "-".join([delivery["event"], *sorted(set(orders))])


def end(bot):
    bot.kill()
    sys.exit(1)


def main():
    answers, marks, push, *command = sys.argv[1:]
    if command[1:2] not in (["guard"], ["run"]) or not command[-1].endswith("/records/bot.db"):
        os.execv(command[0], command)
    host = os.getppid()
    bot = subprocess.Popen(command, stdin=subprocess.PIPE, stdout=subprocess.PIPE, bufsize=0)
    for line in sys.stdin.buffer:
        delivery = json.loads(line)
        if is_first(marks, f"bot-before-{delivery['event']}"):
            end(bot)
        bot.stdin.write(line)
        said = bot.stdout.readline()
        if not said:
            sys.exit(bot.wait())
        answer = json.loads(said)["answer"] if command[1] == "guard" else json.loads(said)
        with open(answers, "a", encoding="utf-8") as file:
            file.write(json.dumps({"delivery": delivery, "answer": answer}) + "\n")
        kind = kind_of(delivery, answer)
        if push != "-" and "stage" in kind:
            subprocess.run([push], check=True, stdin=subprocess.DEVNULL, stdout=subprocess.DEVNULL)
            push = "-"
        if is_first(marks, f"bot-after-{kind}"):
            end(bot)
        if is_first(marks, f"host-before-{kind}"):
            os.kill(host, signal.SIGKILL)
        sys.stdout.buffer.write(said)
        sys.stdout.buffer.flush()
        if is_first(marks, f"host-after-{kind}"):
            os.kill(host, signal.SIGKILL)
    bot.stdin.close()
    sys.exit(bot.wait())


if __name__ == "__main__":
    try:
        main()
    except BrokenPipeError:
        sys.exit(1)
