# Building C against the archive of `site`, with the kit alone: its clang, linker and C library. Sourced by the tests that call from C; the
# folder is the project's.
kit=$(dirname "$(rt doc)")
tools=$kit/toolchain
target=x86_64-unknown-linux-gnu
out=$(mktemp -d)
trap 'rm -rf "$out"' EXIT

# Adds every crate below $1 to `reached`.
reached=
reach() {
  local crate
  for crate in $(sed -n "s/^$1\( staticlib\)\{0,1\}: *//p" crates.txt); do
    case " $reached " in *" $crate "*) continue ;; esac
    reached="$reached $crate"
    reach "$crate"
  done
}

# The archive: the file $1, which bin/archive has made of what is proved; without a word it is compiled from the crates of the folder $2 WITHOUT
# proof, in seconds.
archive() {
  if [ "$1" ]; then
    cp "$1" "$out/libsite.a"
  else
    bin/compile --archive "$out" "$2"
  fi
}

# C files to the objects of the program $1. The kit has a C library and no headers, so those of tests/c/kit stand in.
compile() {
  local name=$1 file
  shift
  for file in "$@"; do
    "$tools/bin/clang" --target=$target --no-default-config -nostdinc -isystem tests/c/kit -I include -std=c11 -Wall -Wextra -Werror \
      -O2 -fPIE -c "$file" -o "$out/$name.$(basename "$file" .c).o"
  done
}

link_with_archive() {
  "$kit/bin/rattle-link" --target $target --toolchain "$tools" -o "$out/$1" "$out/$1".*.o "$out/libsite.a" 2>"$out/$1.log" ||
    { cat "$out/$1.log" >&2; return 1; }
}

program() {
  compile "$@"
  link_with_archive "$1"
}

# Runs a program; `limit` may hold a command that ends it after some time.
limit=
execute() {
  $limit "$out/$1"
}
