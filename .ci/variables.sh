# Sourced by the gate and by each step: clears every variable that would have it test another library or program, fewer inputs or code that
# is built otherwise, or that would silence a sanitizer or valgrind.
for name in $(compgen -e); do
    case $name in
    CARGO_HOME | RUSTUP_HOME | RUSTUP_TOOLCHAIN) ;; # where cargo and its compiler are installed
    GIGORCHID_* | CARGO | CARGO_* | RUST* | ASAN_OPTIONS | LSAN_OPTIONS | UBSAN_OPTIONS | VALGRIND_OPTS) unset "$name" ;;
    esac
done
unset name
