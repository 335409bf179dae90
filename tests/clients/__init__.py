"""What clients of other makers meet (run.py): a module for each part, and what they share. Modules import each other by
relative imports, and vtmap and the models as the gate's Python finds them: from here on the top of the repository and
model/ are on its path.
"""
import os
import sys

TOP = os.path.normpath(os.path.join(os.path.dirname(os.path.abspath(__file__)), "..", ".."))
sys.path += [TOP, os.path.join(TOP, "model")]
