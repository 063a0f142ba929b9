"""The agent's actions, as cluster/pair calls them."""
import os
import sys

sys.path.insert(0, os.path.dirname(os.path.dirname(os.path.realpath(__file__))))
from agent.actions import main

sys.exit(main(sys.argv[1:]))
