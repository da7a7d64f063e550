# Reads crates.txt, then docs/PROMISES.md, and prints what its tables cite, a line each: where, crate, kind (function, law, folder, file), module, name.
# In a cell, `crate:` opens a list of Module.name, Module and folder/ of that crate; `crate::name` is a function of it.
FILENAME ~ /crates\.txt$/ { if ($0 !~ /^#/ && index($0, ":")) { sub(/:.*/, ""); known[$0] = 1 } next }
!/^\|/ { next }
{
    cells = split($0, cell, "|")
    for (i = 3; i < cells; i++) {
        crate = ""
        n = split(cell[i], word, /[;,() \t]+/)
        for (k = 1; k <= n; k++) {
            w = word[k]
            if (w ~ /^[a-z_]+:$/) { c = substr(w, 1, length(w) - 1); crate = (c in known) ? c : ""; continue }
            if (w ~ /^[a-z_]+::[A-Za-z_0-9:]+$/) {
                split(w, part, "::"); crate = ""
                name = w; sub(/.*::/, "", name)
                if (part[1] in known) print FNR, part[1], "function", "-", name
                continue
            }
            if (crate == "") continue
            if (w ~ /^[A-Z][A-Za-z]*\.[A-Za-z][A-Za-z0-9_-]*$/) { split(w, part, "."); print FNR, crate, "law", part[1], part[2] }
            else if (w ~ /^[a-z_]+\/$/) print FNR, crate, "folder", "-", substr(w, 1, length(w) - 1)
            else if (w ~ /^[A-Z][A-Za-z]*Laws$/) print FNR, crate, "file", "-", w
        }
    }
}
