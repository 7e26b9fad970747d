"""The request lines of a release team, for tools/bin/wb-requests."""
