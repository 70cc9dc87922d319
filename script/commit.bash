# What the commit is that something is made from. A script that sources this has set `top`.

# The number of the version, the newest of CHANGELOG.md.
number_of() { sed -n 's/^## \([0-9][0-9.]*\).*/\1/p' "$top/CHANGELOG.md" 2>/dev/null | head -n 1; }

# The commit; status 1 if this is no clone.
commit_of() { git -C "$top" rev-parse HEAD 2>/dev/null; }

# Whether there are changes to it.
is_changed() { [ -n "$(git -C "$top" status --porcelain 2>/dev/null)" ]; }

# Its moment, in seconds since the beginning of 1970.
moment_of() { git -C "$top" log -1 --format=%ct; }
