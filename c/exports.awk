# Writes a line for each function of the C interface: its name, its result, and the C types of its arguments in order.
# With side=header it reads bites.h. With side=rust it reads the exports of the crate, as C sees them.

function trim(text) { gsub(/^[ \t]+|[ \t]+$/, "", text); return text }

# the C types that a type of an export's argument stands for
function c_types(type) {
    if (type == "Global") return ""
    if (type == "u32") return " uint32_t"
    if (type == "usize") return " size_t"
    if (type == "&mut usize") return " size_t*"
    if (type == "&mut Bites") return " bites*"
    if (type == "&mut BitesCache") return " bites_cache*"
    if (type == "&mut BitesSet") return " bites_set*"
    if (type == "&mut BitesSpan") return " bites_span*"
    if (type == "&mut BitesTable") return " bites_table*"
    if (type == "&[u8]") return " const_uint8_t* size_t"
    if (type == "&mut [u8]") return " uint8_t* size_t"
    if (type == "&[usize]") return " const_size_t* size_t"
    if (type == "&[BitesSpan]") return " const_bites_span* size_t"
    if (type == "&mut [BitesSpan]") return " bites_span* size_t"
    if (type == "BitesSize") return " bites_size"
    if (type == "()") return " void"
    return " unknown_type_" type
}

function rust_line(text,    name, result, inside, parts, count, i, line) {
    name = text; sub(/^.*extern "C" fn /, "", name); sub(/\(.*$/, "", name)
    result = "()"
    if (match(text, /-> [A-Za-z0-9]+/)) result = substr(text, RSTART + 3, RLENGTH - 3)
    inside = text; sub(/^[^(]*\(/, "", inside); sub(/\).*$/, "", inside)
    line = name c_types(result)
    count = split(inside, parts, ",")
    for (i = 1; i <= count; i++) if (trim(parts[i]) != "") {
        sub(/^[^:]*:/, "", parts[i]); line = line c_types(trim(parts[i]))
    }
    print line
}

function header_line(text,    head, inside, name, parts, count, i, type, line) {
    head = text; sub(/\(.*$/, "", head)
    name = head; sub(/^.* /, "", name)
    sub(/ [^ ]*$/, "", head)
    line = name " " head
    inside = text; sub(/^[^(]*\(/, "", inside); sub(/\).*$/, "", inside)
    count = split(inside, parts, ",")
    for (i = 1; i <= count; i++) {
        type = trim(parts[i]); if (type == "void") continue; sub(/[A-Za-z_0-9]+$/, "", type); type = trim(type)
        gsub(/ \*/, "*", type); gsub(/ /, "_", type)
        if (type == "char*") type = "uint8_t*" # the bytes of a text that ends with a NUL
        line = line " " type
    }
    print line
}

side == "header" && /^[a-z0-9_]+ bites_[a-z_]+\(.*\);$/ { header_line($0) }
side == "rust" && /^pub extern "C" fn / { on = 1; signature = "" }
side == "rust" && on {
    signature = signature " " trim($0)
    if (signature ~ /\)/) { rust_line(signature); on = 0 }
}
