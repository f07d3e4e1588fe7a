"""The command `palqytun` of a worker with a fault: wrong_worker.py FAULT, and the words of the command."""

import sys

import faulty
from palqytun.runtime.command import main

faulty.FAULTS[sys.argv.pop(1)]()
sys.exit(main())
