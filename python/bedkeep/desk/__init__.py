"""The desk: a page in the browser to correct a track by, in the folder page, and its server."""
