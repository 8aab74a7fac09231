"""The tools of the command doomview.

By subject: `wads` (finding and reading WADs), `levels` (the lumps of a map as records), `paths` (camera paths),
`frames`, `traces` and `png` (what doomview writes, and pictures of it), `tables` and `room` (files that are made),
`checks` (mistakes of a map), `ground`, `cells`, `counting` and `limits_page` (what the views of a whole map count),
`compare_page` and `pages` (pages of one file), `pictures` (what ports write), `files` (files that are whole or not
there), `program` (the proved program), `jobs` and `job_options` (what it can do), `call_words` and `word_checks` (the
words of a call), `list_files` and `map_places` (what views are made of, and where that is in a map), `player_reach` (where
a player gets), `build` (building the program), `installation` (where all this stands), `doom` and `art` (what Doom has:
layouts, flags, types; textures and flats). `cli` is what all commands share, `commands` has a module for each tool, and
`command` is the command doomview itself."""
