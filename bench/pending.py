"""The switch of request d: with PENDING=1 in the environment bench/ knows S, W and L. It goes when d lands."""
import os

PENDING = os.environ.get("PENDING") == "1"
