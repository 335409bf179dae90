"""The limits of features, edits and archives, and the sizes of what a disk has: each once (docs/HTTP.md, docs/FORMATS.md)."""

# Features: the greatest zoom, the tiles that one may cover, the bytes of its text, of a tag's text and of its name, the tags, and one above the
# greatest id.
GREATEST_ZOOM, MOST_REACH, MOST_TEXT, MOST_TAG, MOST_NAME, MOST_TAGS = 19, 262144, 32768, 1024, 64, 64
NUMBER_END = 2 ** 63
# Edits: the changes of one, and the bytes of the body of a request.
MOST_CHANGES, MOST_BODY = 64, 65536
# Archives: their entries.
MOST_ENTRIES = 131072
# Disks: the bytes of a sector, and those of an edit's text in a sector of the journal.
SECTOR, PART = 512, 496
