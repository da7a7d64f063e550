# Prints each public entry whose promise names a definition of specs/stages/. A public entry is a function that is public, or exported
# under a C name, and demands nothing; the files to read are named by .ci/run.
FNR == 1 { split("", stage); entry = "" }
/^ghost use .*specs\.stages\..*\{/ {
    names = $0
    sub(/.*\{/, "", names); sub(/\}.*/, "", names)
    n = split(names, each, /, */)
    for (i = 1; i <= n; i++) stage[each[i]] = 1
}
/^ *pub (extern "C" )?fn / { entry = $0; promise = ""; demands = 0; clauses = 0; next }
entry != "" && /^ *\{$/ {
    gsub(/[][(){}.,;]/, " ", promise)
    n = split(promise, word, / +/)
    for (i = 1; i <= n && !demands; i++)
        if (word[i] in stage) { print FILENAME ": " entry " names " word[i]; found = 1; break }
    entry = ""
}
entry != "" && /^ *requires ([a-z0-9_]* )?\{/ { demands = 1 }
# a clause may go on over several lines
entry != "" && /^ *(ensures|requires) ([a-z0-9_]* )?\{/ { clauses = 1 }
entry != "" && clauses { promise = promise " " $0 }
END { exit found }
