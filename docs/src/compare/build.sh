# Sourced by run, bench and stack: goes to the root of the repository and keeps what cargo and gcc build under its target/.
[ -z "${FOREST_LIB:-}" ] || FOREST_LIB=$(realpath "$FOREST_LIB")
[ -z "${FOREST_PROGRAM:-}" ] || FOREST_PROGRAM=$(realpath "$FOREST_PROGRAM")
cd "$(dirname "${BASH_SOURCE[0]}")/../../.."
export CARGO_TARGET_DIR=$PWD/target/rust
mkdir -p "$CARGO_TARGET_DIR"

# Whether a file is absent or older than the crates.
outdated() {
  [ ! -e "$1" ] || [ -n "$(find crates crates.txt -name out -prune -o -type f -newer "$1" -print -quit)" ]
}

# The static library for C is the crate exports_c; its users link it as libexports.a.
build_library() {
  if [ -z "${FOREST_LIB:-}" ]; then
    FOREST_LIB=$PWD/target/staticlib
    if outdated "$FOREST_LIB/libexports.a"; then
      (cd crates/exports_c && rt lib)
      mkdir -p "$FOREST_LIB"
      cp crates/exports_c/out/libexports_c.a "$FOREST_LIB/libexports.a"
    fi
  fi
  export FOREST_LIB
}

build_program() {
  if [ -z "${FOREST_PROGRAM:-}" ]; then
    FOREST_PROGRAM=$PWD/crates/unit/out/unit
    ! outdated "$FOREST_PROGRAM" || (cd crates/unit && rt run <stdin >/dev/null)
  fi
}

# A C program of this folder, by its name, linked with the library.
build_c() {
  gcc -std=c11 -O2 -Wall -Wextra -Werror -Idocs -Wl,-z,now -o "$CARGO_TARGET_DIR/$1" "docs/src/compare/$1.c" "$FOREST_LIB/libexports.a"
}
