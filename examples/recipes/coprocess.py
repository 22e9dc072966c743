# Asks a program that stays: a line goes in, and its row comes out before the next line is sent.
import subprocess

with subprocess.Popen(["sqljson", "run", "name.sql"], stdin=subprocess.PIPE, stdout=subprocess.PIPE) as run:
    for line in [b'{"name":"Ann"}', b'{"name":"Bo"}', b'{"nam']:
        run.stdin.write(line + b"\n")
        run.stdin.flush()
        print(run.stdout.readline())
    run.stdin.close()
assert run.returncode == 0
