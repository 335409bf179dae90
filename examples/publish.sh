#!/bin/bash
# It is a command of vtmap now: this says which.
echo 'examples/publish.sh is now vtmap publish --url URL. In a clone: bin/vtmap, or python3 -m vtmap; `vtmap --help` lists the commands' >&2
exit 2
