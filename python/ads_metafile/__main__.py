"""`python3 -m ads_metafile` is the command `ads`."""
from .command import entry

entry()
