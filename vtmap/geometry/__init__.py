"""Points, shapes and features: coordinates of the map and of the earth, sizes, cuts, and cut features put together
again."""
