"""python3 -m pinepolo"""
import sys

from .cli import main

sys.exit(main())
