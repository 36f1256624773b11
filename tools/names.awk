# The names that a source file has, each with its path: of antt chapters what is public, with record fields and constructors; of Rattle files
# functions, types, constants and variants, by crate and module, and methods by their type.
function say(name) { print name "\t" FILENAME }

FNR == 1 {
    parts = split(FILENAME, folder, "/")
    file = folder[parts]
    sub(/\.[a-z]+$/, "", file)
    crate = folder[2]
    antt = FILENAME ~ /\.antt$/
    holder = ""
    type = ""
    if (antt) {
        say(file)
    } else {
        say(crate)
        module = (file == "lib" || file == "main") ? crate : crate "::" file
        if (module != crate) { say(module); say(file) }
    }
}

antt && /^ *(abbrev |unfoldable )?pub (record|data) / {
    match($0, /^ */); depth = RLENGTH
    name = $0; sub(/^ *(abbrev |unfoldable )?pub (record|data) /, "", name); sub(/[ :({].*/, "", name)
    holder = name
    constructors = $0 ~ /pub data /
    say(name); say(file "." name)
    next
}

antt && /^ *(abbrev |unfoldable )?pub / && !/pub (mod|use) / {
    match($0, /^ */)
    name = $0; sub(/^ *(abbrev |unfoldable )?pub /, "", name); sub(/[ :({].*/, "", name)
    if (holder != "" && RLENGTH > depth) {
        say(name); say(holder "." name); say(file "." name); say(file "." holder "." name)
    } else {
        holder = ""
        say(name); say(file "." name)
    }
    next
}

antt && holder != "" && constructors && /^ +[a-z][A-Za-z0-9_'-]* : / { name = $1; say(name); say(holder "." name); next }

antt && /^[^ -]/ { holder = "" }

!antt && /^(pub(\(crate\))? )?(extern "C" )?(fn|struct|enum|const) / {
    name = $0; sub(/^(pub(\(crate\))? )?(extern "C" )?(fn|struct|enum|const) /, "", name)
    variants = $0 ~ /enum /
    sub(/[^A-Za-z0-9_].*/, "", name)
    say(name); say(module "::" name); say(crate "::" name)
    next
}

!antt && /^impl/ {
    type = $0; sub(/^impl(<[^ ]*>)? /, "", type); sub(/^.* for /, "", type); sub(/[^A-Za-z0-9_].*/, "", type)
    next
}

!antt && type != "" && /^    (pub(\(crate\))? )?fn / {
    name = $0; sub(/^ *(pub(\(crate\))? )?fn /, "", name); sub(/[^A-Za-z0-9_].*/, "", name)
    say(type "::" name); say(module "::" type "::" name); say(crate "::" type "::" name)
    next
}

!antt && variants && /^    [A-Z][A-Za-z0-9]*[,(]/ { name = $1; sub(/[^A-Za-z0-9].*/, "", name); say(name); next }

!antt && /^}/ { variants = 0; type = "" }
