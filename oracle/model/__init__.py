"""A model of document 01 in plain Python: the refusals, the run, genlist's text.

Written from document 01 with Job 1 of document 02, and the numbered readings of their open points
('reading N').
It shares no code with the generator that it stands beside.
"""
