# What each public function asks of its callers: its `requires`, and the facts of the types that it is lent or given (those of the types of their fields stand at these), which whoever makes such a value proves.
# The files are read twice: first for the types' facts. Usage: awk -f tools/requires.awk crates/*/src/*.rt crates/*/src/*.rt
function reset() { type = ""; name = ""; asked = "" }
FNR == 1 { split(FILENAME, path, "/"); reset(); if (FILENAME == ARGV[1]) pass++ }
/^}/ { reset() }
/^(pub )?(struct|impl).*\{$/ { type = $0; sub(/^(pub )?(struct|impl)(<[^>]*>)? */, "", type); sub(/.* for /, "", type); sub(/[^A-Za-z_0-9].*/, "", type) }
pass == 1 {
    if (/^ *(pub )?ghost [a-z_0-9]+: /) { fact = $0; sub(/^ *(pub )?ghost [a-z_0-9]+: /, "", fact); sub(/,$/, "", fact); facts[type] = facts[type] " " fact }
    next
}
/(^| )fn [a-z]/ { match($0, /fn [a-z_0-9]+/); name = /pub / ? path[2] "::" (type ? type "::" : "") substr($0, RSTART + 3, RLENGTH - 3) : ""; asked = name }
# the parameters' types, up to the arrow or the body
asked { text = $0; sub(/->.*/, "", text); for (t in facts) if (text ~ "[^A-Za-z_0-9]" t "([^A-Za-z_0-9]|$)" || (text ~ /[(, &](mut )?self[,)]/ && t == type)) if (text !~ "^ *[a-z(]*fn " t) print name ": takes " t facts[t] }
asked && (/->/ || /\{$/) { asked = "" }
/^ *requires / && name { sub(/^ */, ""); print name ": " $0 }
