"""Runs a program and prints its status, the seconds of a processor that it took, and the KiB of its peak memory.

    measure.py INPUT OUTPUT PROGRAM ARGUMENT..

Standard input is the file INPUT, standard output goes to the file OUTPUT, and standard error is thrown away.
A program that runs for more than a minute is ended, and its status is then 124.
"""

import os
import signal
import sys

source, target, *command = sys.argv[1:]
child = os.fork()
if child == 0:
    os.dup2(os.open(source, os.O_RDONLY), 0)
    os.dup2(os.open(target, os.O_WRONLY | os.O_CREAT | os.O_TRUNC), 1)
    os.dup2(os.open(os.devnull, os.O_WRONLY), 2)
    os.execv(command[0], command)

signal.signal(signal.SIGALRM, lambda *_: os.kill(child, signal.SIGKILL))
signal.alarm(60)
_, status, used = os.wait4(child, 0)
code = os.waitstatus_to_exitcode(status)
print(124 if code == -signal.SIGKILL else code, used.ru_utime + used.ru_stime, used.ru_maxrss)
