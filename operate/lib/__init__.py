"""What the tools of this folder share. Plain Python 3, the standard library alone; nothing of it is proved."""
