#!/usr/bin/env python3
"""It is a command of vtmap now: this says which."""
from moved import moved

moved(__file__)
