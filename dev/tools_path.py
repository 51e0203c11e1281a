"""Where the package of tools/ is; importing this lets a program of dev/ import its modules."""
import os
import sys

TOOLS = os.path.join(os.path.dirname(os.path.dirname(os.path.abspath(__file__))), 'tools')
PACKAGE = os.path.join(TOOLS, 'recon')
sys.path.insert(0, TOOLS)
