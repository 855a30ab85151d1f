"""Runs the commands of a text, its lines that begin with `$`, and prints each with what it said and its status as the text has them."""
import subprocess
import sys

for line in open(sys.argv[1]):
    if line.startswith('$ '):
        ran = subprocess.run(line[2:], shell=True, stdin=subprocess.DEVNULL, stdout=subprocess.PIPE, stderr=subprocess.STDOUT, timeout=60, text=True)
        print(line + ran.stdout + f'[{ran.returncode}]', flush=True)
