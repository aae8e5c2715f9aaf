"""Tests of plift-lab:  PLIFT_PROGRAM=PATH python3 -m unittest discover -s lab/tests -t lab

Without PLIFT_PROGRAM the program is found as plift-lab finds it. All take less than a minute.
"""
