"""The proved workbench in Python's own process, and the commands `python -m lw` and `lw-NAME`.

    import lw
    report = lw.Workbench().states(open("SB-x86.litmus", "rb").read())
    print(report.verdict, [str(it) for it in report.states])

All names are those of python/lw.py, which has the rules.
"""
from .python.lw import *
