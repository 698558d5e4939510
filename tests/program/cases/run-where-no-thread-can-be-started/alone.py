# Usage: alone.py LIMIT ARGUMENT.. Starts the program with the arguments, as a user with at most LIMIT processes and threads. If root runs the case,
# which has no such limit, the program runs under a user number of its own.
import os
import resource
import shutil
import sys

program = os.open(shutil.which("adjudicate"), os.O_RDONLY)
most = int(sys.argv[1])
resource.setrlimit(resource.RLIMIT_NPROC, (most, most))
if os.geteuid() == 0:
    os.setgroups([])
    os.setgid(54321)
    os.setuid(54321)
os.execve(program, ["adjudicate"] + sys.argv[2:], os.environ)
