"""A front for a try: page, map and gateway behind one port of this machine."""
