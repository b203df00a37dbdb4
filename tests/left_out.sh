# For a part of ./test that cannot run here. Where CI is set that fails; else it is said, and again just before the verdict of ./test.
left_out() { # WHAT
    printf 'left out: %s\n' "$1"
    if [ -n "${CI:-}" ]; then
        echo "nothing may be left out where CI is set"
        exit 1
    fi
    if [ -n "${LEFT_OUT:-}" ]; then
        printf 'left out: %s\n' "$1" >>"$LEFT_OUT"
    fi
}
