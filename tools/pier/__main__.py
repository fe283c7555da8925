"""Starts one of the programs: python3 tools/pier NAME WORDS. Modules are looked for beside this folder, never where the caller stands."""
import importlib
import os
import sys

MODULES = {"send": "send", "board": "board", "pier": "serve", "pier-noise": "noise", "keep": "keep"}

sys.path[0] = os.path.dirname(os.path.dirname(os.path.abspath(__file__)))
name = sys.argv.pop(1)
if sys.version_info < (3, 9):
    print("run/%s: it needs Python 3.9 or newer" % name, file=sys.stderr)
    sys.exit(2)
module, ending = importlib.import_module("pier." + MODULES[name]), importlib.import_module("pier.ending")
ending.run("run/" + name, module.main)
