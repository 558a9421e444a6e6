"""Where tools/explain begins. Whatever goes wrong unforeseen ends with status 3: 0, 1 and 2 are verdicts."""
import os
import sys
import traceback

sys.path[0] = os.path.join(os.path.dirname(os.path.abspath(__file__)), "..")
try:
    from explaining.command import main

    STATUS = main(sys.argv[1:])
except KeyboardInterrupt:
    STATUS = 3
except Exception:  # not SystemExit: --help and --version end by it
    traceback.print_exc()
    STATUS = 3
sys.exit(STATUS)
