# Prints the folders of the crates that the program dpmi is made of, one a line, from crates.txt: of each crate those that `parts` names.
#   awk -v parts="src specs" -f tools/parts.awk crates.txt
function add(name,   i, n, names) {
    if (name in ours || !(name in below)) return
    ours[name] = 1
    n = split(below[name], names)
    for (i = 1; i <= n; i++) add(names[i])
}
{ sub(/#.*/, "") }
split($0, sides, ":") == 2 { split(sides[1], words, " "); below[words[1]] = sides[2] }
END {
    add("dpmi")
    n = split(parts, names, " ")
    for (crate in ours) for (i = 1; i <= n; i++) print "crates/" crate "/" names[i]
}
