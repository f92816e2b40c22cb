#!/usr/bin/env python3
"""A client that waits for the reply to each line before it sends the next: python3 examples/client.py FOLDER"""
import subprocess
import sys

log = subprocess.Popen(["./clfs", sys.argv[1], "serve"], stdin=subprocess.PIPE, stdout=subprocess.PIPE, text=True, bufsize=1)


def ask(line):
    print(line, file=log.stdin, flush=True)
    reply = log.stdout.readline().rstrip("\n")
    print(f"{line:40} {reply}")
    return reply.split()


ask("1 open orders")
ask("1 area 1 960 4")
previous = "0:0:0"
for text in ["begin", "debit 5", "credit 5", "commit"]:
    previous = ask(f"1 append 1 {text.encode().hex()} {previous} {previous}")[2]
ask("1 flush 1")
cursor = ask(f"1 read 1 {previous} previous")[2]
while ask(f"1 next 1 {cursor}")[1] == "record":
    pass
log.stdin.close()
sys.exit(log.wait())
