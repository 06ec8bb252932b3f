"""python3 -m hevrukan state, explain or stats."""

import signal
import sys

from hevrukan.commands import main

if __name__ == "__main__":
    # a closed pipe and Ctrl-C end it as they end any other program
    signal.signal(signal.SIGPIPE, signal.SIG_DFL)
    signal.signal(signal.SIGINT, signal.SIG_DFL)
    sys.exit(main())
