# Read by tools/door.sh in an unpacked release and where plift is installed: finds the program that lies in
# `programs` beside the file `made`, a line with what it is (proved or quick) and the commit that it is from.

read -r kind_made commit_made <"$top/programs/made" || kind_made='of an unknown build' commit_made=

kind_of_program() {
    printf '%s\n' "$kind_made"
}

commit_of_sources() {
    printf '%s\n' "$commit_made"
}

# The word --quick, which the pages have, changes nothing here: the program is there.
find_program() {
    program=$top/programs/$name
    [ -x "$program" ] || fail "$program isn't there"
}
