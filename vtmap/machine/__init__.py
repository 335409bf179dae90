"""A machine that serves several maps: its files, and the services that run them. Needs no package."""
