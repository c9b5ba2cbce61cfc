"""Shows an order in a browser: `python -m uca.explorer`.

The page is served on the loopback address only, to anyone who has the token in its address. It shows words in their order, the level that
decides between neighbours, and what the key of a word is made of, under any table and any rules.
"""
