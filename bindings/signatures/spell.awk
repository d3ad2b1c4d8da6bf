# The functions that a source declares for C, each spelled as its C prototype: a line
#
#   NAME <tab> 0 <tab> RESULT
#
# and for each parameter, numbered from 1, a line NAME <tab> NUMBER <tab> PARAMETER. The record of light
# is spelled likewise, a line a field. `form` says what is read: `rattle` (the exports of Rattle files),
# `header` (the prototypes of a C header) or `rust` (the `extern "C"` blocks of Rust files). What cannot
# be read is said in a line `?` <tab> 0 <tab> TEXT, which no other source has.

BEGIN {
    record = "struct interflect_light"
    scalar["f32"] = "float"
    scalar["u8"] = "uint8_t"
    scalar["u32"] = "uint32_t"
    scalar["usize"] = "size_t"
    scalar["Light"] = record
}

{ source = source $0 "\n" }

END {
    if (form == "header")
        read_header(spaced(without_directives(without_comments(source))))
    else {
        source = spaced(without_comments(source))
        if (form == "rattle")
            read_exports(source)
        else
            read_blocks(source)
        read_record(source)
    }
}

function unreadable(text) {
    print "?\t0\t" substr(spaced(text), 1, 80)
}

# The text without its comments, `//` to the end of a line and `/* */`.
function without_comments(text,    kept, rest) {
    while (match(text, /\/\/|\/\*/)) {
        kept = kept substr(text, 1, RSTART - 1) " "
        rest = substr(text, RSTART + 2)
        if (substr(text, RSTART, 2) == "//")
            text = substr(rest, index(rest, "\n"))
        else if (index(rest, "*/") == 0) {
            unreadable("a comment that does not end")
            text = ""
        } else
            text = substr(rest, index(rest, "*/") + 2)
    }
    return kept text
}

# A header without the lines for the preprocessor. Others than those of a plain header could hide or
# change a prototype, and are not read.
function without_directives(text,    lines, n, i, kept) {
    n = split(text, lines, "\n")
    for (i = 1; i <= n; i++) {
        if (lines[i] !~ /^[ \t]*#/)
            kept = kept lines[i] "\n"
        else if (lines[i] !~ /^#(ifndef INTERFLECT_H|define INTERFLECT_H|include <[a-z]+\.h>|ifdef __cplusplus|endif)[ \t]*$/)
            unreadable(lines[i])
    }
    return kept
}

# The text on one line, with single blanks.
function spaced(text) {
    gsub(/[ \t\r\n]+/, " ", text)
    sub(/^ /, "", text)
    sub(/ $/, "", text)
    return text
}

# The C spelling of a declaration, with blanks where this project writes them.
function c_spelled(text) {
    gsub(/ *\* */, " *", text)
    gsub(/\* \*/, "**", text)
    return spaced(text)
}

# The place of the bracket that closes the one which text begins with; 0 if none does.
function closing(text, opened, closed,    depth, i, c) {
    for (i = 1; i <= length(text); i++) {
        c = substr(text, i, 1)
        if (c == opened)
            depth++
        else if (c == closed && --depth == 0)
            return i
    }
    return 0
}

# The exports of Rattle files.
function read_exports(text,    end) {
    while (match(text, /pub extern "C" fn /)) {
        text = substr(text, RSTART + RLENGTH)
        end = match(text, /\{/)
        if (end == 0)
            end = length(text)
        read_function(substr(text, 1, end - 1))
    }
}

# The functions of the `extern "C"` blocks of Rust files.
function read_blocks(text,    block, end) {
    while (match(text, /extern "C" \{/)) {
        text = substr(text, RSTART + RLENGTH - 1)
        end = closing(text, "{", "}")
        block = substr(text, 2, end - 2)
        text = substr(text, end + 1)
        read_block(block)
    }
}

function read_block(block,    items, n, i) {
    while (match(block, /\[[a-z0-9]+; ?[0-9]+\]/))
        block = substr(block, 1, RSTART - 1) array_marked(substr(block, RSTART, RLENGTH)) substr(block, RSTART + RLENGTH)
    n = split(block, items, ";")
    for (i = 1; i <= n; i++) {
        if (items[i] ~ /^ *(pub(\([a-z]+\))? )?fn /) {
            sub(/^ *(pub(\([a-z]+\))? )?fn /, "", items[i])
            read_function(items[i])
        } else if (spaced(items[i]) != "")
            unreadable(items[i])
    }
}

# A function of Rattle or Rust from its name on: `name(a: T, b: U) -> R`, and what may follow.
function read_function(text,    name, open, end, parts, n, i, place) {
    open = index(text, "(")
    name = spaced(substr(text, 1, open - 1))
    text = substr(text, open)
    end = closing(text, "(", ")")
    if (name !~ /^[a-z0-9_]+$/ || end == 0) {
        unreadable(name text)
        return
    }
    print name "\t0\t" result_in(substr(text, end + 1))
    n = split(substr(text, 2, end - 2), parts, ",")
    for (i = 1; i <= n; i++)
        if (i < n || spaced(parts[i]) != "")
            place = print_parameter(name, place, spaced(parts[i]))
}

function result_in(text) {
    if (!match(text, /^ ?-> ?[a-z0-9]+/))
        return "void"
    sub(/^ ?-> ?/, "", text)
    sub(/[^a-z0-9].*$/, "", text)
    return c_type(text)
}

# Prints a parameter `name: T` behind `place` others, a slice as two; how many there are then.
function print_parameter(function_name, place, text,    colon, name, type) {
    colon = index(text, ":")
    name = spaced(substr(text, 1, colon - 1))
    type = array_marked(spaced(substr(text, colon + 1)))
    if (type ~ /^(&mut |\*mut )\[[a-z0-9]+ x [0-9]+\]$/) {
        print function_name "\t" ++place "\t" array_spelled(type, name)
    } else if (type ~ /^&(mut )?\[[^]]*\]$/) {
        print function_name "\t" ++place "\t" c_spelled(slice_type(type) " *" name)
        print function_name "\t" ++place "\tsize_t " name "_len"
    } else
        print function_name "\t" ++place "\t" c_spelled(c_type(type) " " name)
    return place
}

# An array type `[T; 6]` with ` x ` for its semicolon, at which declarations end.
function array_marked(type) {
    sub(/; ?/, " x ", type)
    return type
}

# A parameter for an array that is written: `&mut [T; 6]` of Rattle, `*mut [T; 6]` of Rust.
function array_spelled(type, name,    parts) {
    gsub(/^(&mut |\*mut )\[|\]$/, "", type)
    split(type, parts, " x ")
    return c_type(parts[1]) " " name "[" parts[2] "]"
}

# The C type that a slice's pointer has, without its star.
function slice_type(type,    mutable) {
    mutable = type ~ /^&mut /
    gsub(/^&(mut )?\[ ?| ?\]$/, "", type)
    return (mutable ? "" : "const ") c_type(type)
}

# The C type of a number, a record, or a pointer or reference to one.
function c_type(type) {
    if (type in scalar)
        return scalar[type]
    if (type ~ /^(&mut |\*mut )/)
        return c_type(substr(type, 6)) " *"
    if (type ~ /^\*const /)
        return "const " c_type(substr(type, 8)) " *"
    if (type ~ /^&/)
        return "const " c_type(substr(type, 2)) " *"
    return "?" type
}

# The record of light of Rattle or Rust files: `#[repr(C)]`, and fields that are vectors of floats.
function read_record(text,    body) {
    body = struct_body(text, "Light")
    if (body != "")
        print_fields(body, vector_floats(text))
}

# What stands between the braces of a public struct that is laid out as C does; nothing if there is none.
function struct_body(text, name) {
    if (!match(text, "#\\[repr\\(C\\)\\] (#\\[[^]]*\\] )*pub struct " name " \\{"))
        return ""
    text = substr(text, RSTART + RLENGTH - 1)
    return substr(text, 2, closing(text, "{", "}") - 2)
}

# How many floats a Vec3 has: three where it is `[f32; 3]`, as many as it has fields where it is a struct
# of floats; -1 where it is neither.
function vector_floats(text,    body, fields, n, i, floats) {
    if (match(text, /type Vec3 = \[f32; [0-9]+\]/)) {
        text = substr(text, RSTART, RLENGTH)
        gsub(/^.*; |\]$/, "", text)
        return text
    }
    body = struct_body(text, "Vec3")
    n = split(body, fields, ",")
    for (i = 1; i <= n; i++)
        if (fields[i] ~ /: ?f32 ?$/)
            floats++
        else if (spaced(fields[i]) != "")
            return -1
    return floats + 0
}

function print_fields(body, floats,    fields, n, i, field) {
    n = split(body, fields, ",")
    for (i = 1; i <= n; i++) {
        field = spaced(fields[i])
        sub(/^pub /, "", field)
        if (field ~ /: ?Vec3$/) {
            sub(/ ?:.*$/, "", field)
            print record "\t" i "\tfloat " field "[" floats "]"
        } else if (field != "")
            print record "\t" i "\t" field
    }
}

# A header without comments and directives: enums, the record, and prototypes, in `extern "C" { }`.
function read_header(text,    body, end, items, n, i) {
    sub(/extern "C" \{/, "", text)
    sub(/\}$/, "", text)
    gsub(/enum [a-z_]+ \{[^}]*\};/, "", text)
    if (match(text, record " \\{")) {
        body = substr(text, RSTART + RLENGTH - 1)
        end = closing(body, "{", "}")
        print_c_fields(substr(body, 2, end - 2))
        text = substr(text, 1, RSTART - 1) substr(body, end + 2)
    }
    n = split(text, items, ";")
    for (i = 1; i <= n; i++)
        if (spaced(items[i]) != "")
            read_prototype(spaced(items[i]))
}

function print_c_fields(body,    fields, n, i) {
    n = split(body, fields, ";")
    for (i = 1; i <= n; i++)
        if (spaced(fields[i]) != "")
            print record "\t" i "\t" spaced(fields[i])
}

# A prototype: `result name(parameters)`.
function read_prototype(text,    open, head, name, parts, n, i) {
    open = index(text, "(")
    head = c_spelled(substr(text, 1, open - 1))
    if (open == 0 || text !~ /\)$/ || head !~ /[ *][A-Za-z0-9_]+$/) {
        unreadable(text)
        return
    }
    name = head
    sub(/^.*[ *]/, "", name)
    print name "\t0\t" c_spelled(substr(head, 1, length(head) - length(name)))
    n = split(substr(text, open + 1, length(text) - open - 1), parts, ",")
    for (i = 1; i <= n; i++)
        if (n > 1 || spaced(parts[i]) != "void")
            print name "\t" i "\t" c_spelled(parts[i])
}
