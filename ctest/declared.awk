# The calls that the header declares, each on a line of its own: uint8_t NAME(PARAMETERS). What the header defines itself is no call of the
# archive: no `;` follows its parameters.
!/^#/ { text = text " " $0 }
END {
    while ((start = index(text, "/*")) > 0) {
        rest = substr(text, start + 2)
        text = substr(text, 1, start - 1) " " substr(rest, index(rest, "*/") + 2)
    }
    gsub(/[ \t]+/, " ", text)
    while (match(text, /[a-z0-9_]+ corbastrigo_[a-z0-9_]+\([^()]*\);/)) {
        print substr(text, RSTART, RLENGTH - 1)
        text = substr(text, RSTART + RLENGTH)
    }
}
