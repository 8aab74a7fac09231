"""doomview for other systems: the static program of a release, the program for Windows, the page of one file."""
