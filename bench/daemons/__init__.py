"""What bench/daemon.py measures: a module for each subcommand, and what these share.

nodes.py has the processes, times.py what is measured of them, traffic.py the telegrams that come and go, counted.py the
calls of the system, rounds.py which rounds count, report.py what is printed and saved, and options.py the options.
"""
