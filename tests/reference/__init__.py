"""A second opinion on every reply of spand: the rules of docs/ in plain Python, each figure worked out anew each time."""
