#!/usr/bin/env python3
"""Whether a script ends soon after a signal: signalled.py SIGNAL FOLDER COMMAND..

It ends with 128 and the signal's number, or by the signal. It has it once something stands in the folder.
"""
import os
import signal
import subprocess
import sys
import time


def main() -> int:
    number = getattr(signal, f'SIG{sys.argv[1]}')
    ran = subprocess.Popen(sys.argv[3:], stdout=subprocess.DEVNULL, stderr=subprocess.DEVNULL,
                           preexec_fn=lambda: signal.signal(signal.SIGINT, signal.default_int_handler))
    for _ in range(600):
        if ran.poll() is not None or os.listdir(sys.argv[2]):
            break
        time.sleep(.1)
    if ran.poll() is not None:
        print(f'it ended by itself, with {ran.returncode}')
        return 1
    begun = time.monotonic()
    ran.send_signal(number)
    try:
        status = ran.wait(10)
    except subprocess.TimeoutExpired:
        ran.kill()
        status = ran.wait()
    took = time.monotonic() - begun
    # (a second, on a machine that does nothing else)
    is_right = took < 8 and status in (128 + number, -number)
    if not is_right:
        print(f'it ended after {took:.1f} s with {status}')
    return 0 if is_right else 1


if __name__ == '__main__':
    sys.exit(main())
