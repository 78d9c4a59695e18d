"""How soon a time limit or Ctrl-C has to be heard in a test, in seconds.

On a quiet machine it is half a second (MCF_PLAN_HEARD=0.5). The tests run beside others, so that more is allowed if that
is not set: still far less than the 20 seconds for which the programs that they interrupt would go on.
"""

import os

HEARD = float(os.environ.get("MCF_PLAN_HEARD", "6"))
