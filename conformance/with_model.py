"""Puts model/ on the path of modules: imported by what is started in this folder, before the first module of the model."""
import os
import sys

sys.path.append(os.path.join(os.path.dirname(os.path.dirname(os.path.realpath(__file__))), "model"))
