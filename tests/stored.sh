# Sourced by the tests of captures. as_stored FOLDER STORED TEXT..: FOLDER/NAME.got, what was made of each text, is what stands beside the
# text, NAME.out, or has the size and the sum of STORED/NAME.sum, for those that captures/make makes. The exit status is how many
# differ.
as_stored() {
    local folder=$1 stored=$2 wrong=0 text name
    shift 2
    for text in "$@"; do
        name=$(basename "$text" .txt)
        if [ -f "${text%.txt}.out" ]; then
            cmp "$folder/$name.got" "${text%.txt}.out" || wrong=$((wrong + 1))
        else
            echo "$(wc -c <"$folder/$name.got") $(sha256sum <"$folder/$name.got" | cut -d ' ' -f 1)" |
                cmp - "$stored/$name.sum" || wrong=$((wrong + 1))
        fi
    done
    return "$wrong"
}
