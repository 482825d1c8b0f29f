"""What the scripts `explore` and `replay` share. Python's standard library alone; nothing in it is proved."""
