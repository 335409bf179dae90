"""The commands of vtmap, each a module with `options` and `work`."""
