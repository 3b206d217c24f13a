"""What looks at lcrqdb from outside: drawings, pages of runs, ports, archives, checks and measurements."""
