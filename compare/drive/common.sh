# What the scripts of compare share that build or run something of the project; sourced by them. They set `here` and `stop`.

target=$here/target
drive=$here/drive
triple=x86_64-unknown-linux-gnu
least_rustc=88 # as in compare/build, whose compiler this must be
flags=()
start=()

# The compiler that compare/build takes: RUSTC, or the one on the path, or Debian's.
find_rustc() {
    local candidate found
    for candidate in "${RUSTC:-}" rustc /usr/bin/rustc; do
        [ -n "$candidate" ] || continue
        found=$("$candidate" --version 2>/dev/null | sed -nE 's/^rustc 1\.([0-9]+)\..*/\1/p') || continue
        if [ -n "$found" ] && [ "$found" -ge "$least_rustc" ]; then
            rustc=$candidate
            return
        fi
    done
    stop "no rustc from 1.$least_rustc on (compare/build installs Debian's)"
}

# The library and the proved programs are for x86-64. On Arm a program is made for it too, with what
# compare/build installs and unpacks, and run in the emulator.
prepare_machine() {
    local root
    case $(uname -m) in
        x86_64) return ;;
        aarch64 | arm64) ;;
        *) stop "neither an x86-64 nor an Arm machine: $(uname -m)" ;;
    esac
    command -v x86_64-linux-gnu-gcc >/dev/null && command -v qemu-x86_64 >/dev/null ||
        stop "on Arm it takes a compiler for x86-64 and an emulator: run compare/build first"
    flags+=(--target "$triple" -C linker=x86_64-linux-gnu-gcc)
    if [ -d "$target/amd64/usr" ]; then
        rustc=/usr/bin/rustc
        flags+=(--sysroot "$target/amd64/usr")
    fi
    root=$(dpkg -L libc6-amd64-cross | sed -nE 's|/lib/ld-linux-x86-64.so.2$||p' | head -1)
    [ -n "$root" ] || stop "can't find the x86-64 loader of Debian's libc6-amd64-cross"
    start=(qemu-x86_64 -L "$root" -E "LD_LIBRARY_PATH=$root/lib")
}

# The static library of the proved functions, of the project that PROJECT names.
build_library() {
    project=$(cd "${PROJECT:-$here/..}" && pwd)
    command -v rt >/dev/null || stop "no rt on the path"
    mkdir -p "$target"
    "$project/lib" >"$target/library.log" 2>&1 ||
        stop "the library is not proved (see target/library.log)"
}

# A program of the project that PROJECT names: $1 its name. It is proved and built, and run over its recorded input; where nothing has changed that
# takes a moment.
build_replay() {
    project=$(cd "${PROJECT:-$here/..}" && pwd)
    program=$project/crates/$1/out/$1
    command -v rt >/dev/null || stop "no rt on the path"
    mkdir -p "$target"
    (cd "$project/crates/$1" && rt run) <"$project/crates/$1/stdin" >"$target/$1.log" 2>&1 && [ -x "$program" ] ||
        stop "the program is not proved, or not there (see target/$1.log)"
}

# A Rust program of drive/ with the library and the crate in it: $1 its name.
build_program() {
    "$here/build" || stop "compare/build can't build the crate"
    [ -f "$target/lib/libplist.rlib" ] || stop "compare/build left no target/lib/libplist.rlib"
    "$rustc" "${flags[@]}" -C opt-level=3 -C codegen-units=1 --edition 2021 --crate-name "$1" \
        -o "$target/$1" -L "$target/lib" --extern plist="$target/lib/libplist.rlib" \
        -L "native=$project/target/staticlib" -l static=zurrimannu "$drive/$1.rs"
}

# Files of other writers, made once.
make_real() {
    [ ! -s "$target/real.txt" ] || [ "$target/real.txt" -ot "$drive/real.py" ] || return 0
    command -v python3 >/dev/null || stop "no python3 for the files of other writers"
    mkdir -p "$target"
    python3 "$drive/real.py" >"$target/real.new" || stop "drive/real.py failed"
    mv "$target/real.new" "$target/real.txt"
}
