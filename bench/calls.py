"""Times the calls of the Python package, in python/gamefile: calls.py FILE..

For each file, the best processor time of each call in microseconds.
"""
import sys
import time
import timeit
from pathlib import Path

sys.path.insert(0, str(Path(__file__).resolve().parent.parent / "python"))
import gamefile

ROUNDS, CALLS = 15, 2000

for path in sys.argv[1:]:
    game = Path(path).read_bytes()
    calls = {
        "check": lambda: gamefile.check(game),
        "canonical": lambda: gamefile.canonical(game),
        "key": lambda: gamefile.key(game),
        "table": lambda: gamefile.table(game),
    }
    print(f"{path:47} {len(game):9} bytes", end="")
    for name, call in calls.items():
        best = min(timeit.repeat(call, timer=time.process_time, number=CALLS, repeat=ROUNDS)) / CALLS
        print(f"  {name} {best * 1e6:.1f} us", end="")
    print()
