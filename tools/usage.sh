# shellcheck shell=bash
# For scripts in bash.

# Called with the options that a script has, in one word, and with its words: `-h` or `--help` prints the head of the
# script, and another option as the first word is refused. Options come first.
usage() { # OPTIONS WORD..
    case ${2-} in
        -h | --help)
            sed -n '2,${/^#/!q; s/^# \{0,1\}//p}' "$0"
            exit
            ;;
        -?*)
            if [[ " $1 " != *" $2 "* ]]; then
                echo "${0##*/}: there is no option $2: --help says what there is" >&2
                exit 2
            fi
            ;;
    esac
}
