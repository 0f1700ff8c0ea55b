# Functions that compile and run the C tests of this folder, for scripts/link-checks and scripts/library-checks, which
# read this file at the top of the repository. They set `archive`: the library that the tests are linked with. `memory`
# is the object by which it takes memory, which takes_memory compiles.
# shellcheck shell=bash
out=$(mktemp -d)
trap 'rm -rf "$out"' EXIT
memory=$out/memory.o
warnings="-Wall -Wextra -Wpedantic -Wconversion -Werror"
# (what a program is run under, and the seconds after which it is ended)
under=()
limit=600

has() {
  command -v "$1" > /dev/null && return
  echo "skipped: there is no $1, so $2 is not run"
  return 1
}

# Compiles the functions by which the library takes memory.
takes_memory() {
  # shellcheck disable=SC2086
  gcc -std=c11 $warnings -O2 -fPIC -c library/src/memory.c -o "$memory"
}

# compiled COMPILER NAME FLAG..: a test's program. Those of tables compile table.c too, with the same flags.
compiled() {
  local compiler=$1 name=$2 wrap=
  shift 2
  case $name in
    table* | connections) set -- "$@" library/src/table.c ;;
  esac
  case $name in
    memory | table_memory | signals) wrap=-Wl,--wrap=malloc,--wrap=aligned_alloc,--wrap=realloc,--wrap=free ;;
    blocks) wrap=-Wl,--wrap=madvise ;;
  esac
  # shellcheck disable=SC2086,SC2154
  "$compiler" -std=c11 $warnings -D_DEFAULT_SOURCE -g "$@" -Ilibrary/include "library/c/$name.c" "$archive" "$memory" \
    $wrap -lpthread -o "$out/$name"
}

# run NAME WORD..: the program with these words, which was compiled before.
run() {
  local name=$1 status=0
  shift
  timeout "$limit" "${under[@]}" "$out/$name" "$@" || status=$?
  [ "$status" != 124 ] || echo "$name did not end within $limit s" >&2
  return "$status"
}

# threaded COMPILER ROUNDS FLAG..: compiles the tests of threads and runs them: those that hand values over for ROUNDS
# rounds, and those that fill a growing heap with ten times as many values.
threaded() {
  local compiler=$1 rounds=$2
  shift 2
  compiled "$compiler" threads "$@"
  run threads 1 "$rounds"
  run threads 2 "$rounds"
  compiled "$compiler" refill "$@"
  run refill "$((10 * rounds))"
}

# all COMPILER ROUNDS FLAG..: compiles each test but that of Waiting and runs it, the threads for ROUNDS rounds.
all() {
  local compiler=$1 rounds=$2 name
  shift 2
  for name in session growing_table connections closing blocks misuse pointers whole reuse taking ends batches receipts \
    keys own_keys walks growing seeded memory checked table table_walks table_ends table_hook table_memory; do
    compiled "$compiler" "$name" "$@"
    run "$name"
  done
  threaded "$compiler" "$rounds" "$@"
}

# in_checked_mode COMPILER ROUNDS FLAG..: the tests whose use is right, in checked mode: it reports nothing.
in_checked_mode() {
  local compiler=$1 rounds=$2 name
  shift 2
  for name in session growing_table connections closing pointers whole reuse taking ends batches receipts keys \
    own_keys walks growing seeded memory table table_walks table_ends table_hook table_memory; do
    compiled "$compiler" "$name" -DSHARDHEAP_CHECKED "$@"
    run "$name"
  done
  threaded "$compiler" "$rounds" -DSHARDHEAP_CHECKED "$@"
}

# waits COMPILER TIMES FLAG..: compiles the test of Waiting, and runs it until a leave was refused TIMES times.
waits() {
  compiled "$1" waiting "${@:3}"
  run waiting "$2" "$((limit - 10))"
}

# alone COMPILER FLAG..: compiles and runs what looks at the stack, at each instruction and at signals: no sanitizer and
# no memcheck.
alone() {
  compiled "$1" stack "${@:2}"
  run stack
  compiled "$1" stopped "${@:2}"
  run stopped
  compiled "$1" signals "${@:2}"
  run signals 500 "$((limit - 10))"
}

# head_example HEADER: the example in the head of the header, as a program: each call returns OK.
head_example() {
  local close=${1%.h}_close
  {
    printf '#include "%s"\nint main(void) {\n    uint32_t code = 0;\n' "$1"
    sed -n "/^ \{7\}#include/,/^ \{7\}$close/s/^ \{7\}\([^#].*;\)\(    .*\)\{0,1\}\$/    \1/p" \
      "library/include/$1" | sed "/$close/!s/^    shardheap_\w\+(/    code |= &/"
    printf '    return code != 0 || length != 2 || room[0] != 7 || room[1] != 8;\n}\n'
  } > "$out/head.c"
  # shellcheck disable=SC2086
  gcc -std=c11 $warnings -g -Ilibrary/include "$out/head.c" library/src/table.c "$archive" "$memory" -lpthread \
    -o "$out/head"
  run head && return
  echo "the example in the head of $1 does not do what its comments say" >&2
  return 1
}

# The examples in the headers' comments, which begin in column eight. Those of the heads are run.
examples() {
  echo "== the headers' examples"
  {
    printf '#include "shardheap_table.h"\nbool is_over(void *now, const shardheap_live_key *met);\n'
    printf 'void frees(void *now, const shardheap_ended *ended);\n'
    printf 'uint64_t examples(void);\nuint64_t examples(void) {\n'
    printf '    shardheap heap = SHARDHEAP_INIT;\n    shardheap_pass pass = SHARDHEAP_INIT;\n'
    printf '    shardheap_receipt receipt = SHARDHEAP_INIT;\n    shardheap_table table = SHARDHEAP_INIT;\n'
    printf '    uint32_t code, page = 0, layout = 0;\n'
    printf '    uint64_t words[2] = {7, 8}, room[16], key = 0, second = 1, length = 0, now = 7, count;\n'
    sed -n '/---- A heap/,$s/^ \{7\}\([^ ].*;\)\(    .*\)\{0,1\}\( \*\/\)\{0,1\}$/    \1/p' library/include/shardheap.h
    sed -n '/---- A table/,$s/^ \{7\}\([^ ].*;\)\(    .*\)\{0,1\}\( \*\/\)\{0,1\}$/    \1/p' \
      library/include/shardheap_table.h
    printf '    return code + page + layout + key + length + count;\n}\n'
  } > "$out/examples.c"
  # shellcheck disable=SC2086
  gcc -std=c11 $warnings -fsyntax-only -Ilibrary/include "$out/examples.c"
  head_example shardheap.h
  head_example shardheap_table.h
}

# tables SEEDS: threads of a table that take turns, each order of which comes from a seed, and planted faults.
tables() {
  echo "== threads of a table that take turns"
  timeout "$limit" python3 library/c/table_turns.py "$out" "$1" "$memory" "$archive"
}

# seeds SEEDS: random calls of passes beside a shadow of their heap, those of each heap from a seed, and planted faults.
seeds() {
  echo "== random calls beside a shadow"
  timeout "$limit" python3 library/c/seeded.py "$out" "$1" "$memory" "$archive"
}

# The example of README.md in C, which is a whole program. Its comment says what it prints.
readme() {
  echo "== the example of README.md in C"
  sed -n '/^```c$/,/^```$/{/^```/!p}' README.md > "$out/readme.c"
  # shellcheck disable=SC2086
  gcc -std=c11 $warnings -g -O2 -Ilibrary/include "$out/readme.c" "$archive" "$memory" -lpthread -o "$out/readme"
  local wanted printed
  wanted=$(sed -n 's|.*/\* prints \(.*\) \*/.*|\1|p' "$out/readme.c")
  printed=$(run readme)
  [ -n "$wanted" ] && [ "$printed" = "$wanted" ] && return
  echo "the example of README.md prints '$printed', and says that it prints '$wanted'" >&2
  return 1
}

# Whether some test wants each code of each call, and whether the header agrees with the library.
texts() {
  echo "== the header's codes, and whether it agrees with the library and with what programs were linked with"
  python3 library/c/codes.py
  python3 library/c/agrees.py "$archive"
  scripts/packaging/abi-checks --self-test
  scripts/packaging/abi-checks
}

# unpacked FOLDER: makes the packages of the archive, and unpacks the tarball there.
unpacked() {
  # shellcheck disable=SC2154
  scripts/package "$out/packages" --archive "$archive" > "$out/package.txt"
  mkdir "$1"
  tar -xzf "$out"/packages/shardheap-*.tar.gz -C "$1" --strip-components=1
}

# in_python FOLDER: the tests of the module of Python, and the example of library/README.md, over the shared library in
# the folder.
in_python() {
  local python=(env "LD_LIBRARY_PATH=$1" PYTHONPATH=library/python timeout "$limit" python3 -B)
  "${python[@]}" -m unittest -q test_shardheap
  sed -n '/^```python$/,/^```$/{/^```/!p}' library/README.md | "${python[@]}" -
}

# The package: it is made, which fails if a library shows another call than the header declares, and a program runs with
# each of its libraries, and the module of Python with the shared one.
packaged() {
  echo "== the package"
  unpacked "$out/prefix"
  local with=(gcc -std=c11 -D_DEFAULT_SOURCE -O2 -I"$out/prefix/include" library/c/session.c)
  "${with[@]}" "$out/prefix/lib/libshardheap.a" -lpthread -o "$out/static"
  run static
  "${with[@]}" -L"$out/prefix/lib" -lshardheap -lpthread -o "$out/shared"
  under=(env "LD_LIBRARY_PATH=$out/prefix/lib")
  run shared
  under=()
  in_python "$out/prefix/lib"
}
