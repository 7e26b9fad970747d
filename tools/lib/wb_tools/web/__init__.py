"""The site of one or several offices: pages of what they answer and of the indexes of their journals. `settings.py`
reads what it is told, `offices.py` asks the offices, `visit.py` is one request, `pages.py`, `lists.py` and `search.py`
say what stands on each page, `tables.py` sorts and parts its lists, `charts.py` has the numbers of bars and charts,
`feeds.py` has the feeds. Of porters who act, `sessions.py` has the keys, `rights.py` finds out what they may do,
`orders.py` has offices carry out what is said, and `forms.py` takes what browsers send. `app.py` serves."""
