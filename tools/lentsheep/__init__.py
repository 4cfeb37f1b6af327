"""Views of what the program prints: one screen, JSON, a page, expectations and comparisons.

They stand on the printed texts alone, which `report` reads. Nothing is proved of them, and none changes an answer.
"""
