"""least.py COUNT COMMAND..: runs the command that often and prints the least processor seconds of a run."""
import os, subprocess, sys

count, command = int(sys.argv[1]), sys.argv[2:]


def seconds():
    run = subprocess.Popen(command, stdout=subprocess.DEVNULL)
    _, status, used = os.wait4(run.pid, 0)
    if status != 0:
        sys.exit(f"{' '.join(command)}: exit status {os.waitstatus_to_exitcode(status)}")
    return used.ru_utime + used.ru_stime


print(f"{min(seconds() for _ in range(count)):.4f}")
