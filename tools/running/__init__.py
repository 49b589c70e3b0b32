"""The parts of the command ./xsap: its verbs, the choice of a program, the explanation of refusals, proving, and installing."""
