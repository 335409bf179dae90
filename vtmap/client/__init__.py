"""A client of a running vtserve: addresses, edits, the list of features, publications by steps. Needs no package."""
