"""`python -m palqytun` is the command `palqytun`."""

import sys

from palqytun.runtime.command import main

sys.exit(main())
