"""python3 python COMMAND: as python3 -m hevrukan, without installation, and with no module of the working folder in its way."""

import runpy
import sys

if sys.version_info < (3, 8):
    sys.exit("hevrukan: Python 3.8 or later is needed")
runpy.run_module("hevrukan", run_name="__main__", alter_sys=True)
