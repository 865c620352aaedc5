# Boot blocks for the scripts of this folder.

# words N..: each as four bytes, little-endian.
words() {
    local w
    for w in "$@"; do
        printf "\\x$(printf %02x $((w & 255)))\\x$(printf %02x $((w >> 8 & 255)))"
        printf "\\x$(printf %02x $((w >> 16 & 255)))\\x$(printf %02x $((w >> 24 & 255)))"
    done
}

# 01's small board, word for word.
small_words=(1 120 2 32 3 64 1 112
    0xFFC00010 0 1 0 0x00010020 1 2 0
    0xFFC00000 256 0 4 0x00010020 64 256 4 0x00020000 4096 0 3
    0xF0000000 2)

# with_words BYTE WORD ..: the small board's block with other words there.
with_words() {
    local changed=("${small_words[@]}")
    while [ $# -gt 0 ]; do
        changed[$1 / 4]=$2
        shift 2
    done
    words "${changed[@]}"
}
