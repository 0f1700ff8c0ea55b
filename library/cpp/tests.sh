# Functions that compile and run the C++ tests of this folder, for scripts/link-checks and scripts/library-checks, which
# read library/c/tests.sh before: `archive`, `memory`, `out`, `warnings`, `has` and `run` are its.
# shellcheck shell=bash disable=SC2154

# of_c_as COMPILER: the compiler of C that belongs to one of C++.
of_c_as() {
  case $1 in
    clang++*) echo "clang${1#clang++}" ;;
    *) echo "gcc${1#g++}" ;;
  esac
}

# cpp_compiled COMPILER STANDARD NAME FLAG..: a test's program, with tables, which are compiled with the same flags.
cpp_compiled() {
  local compiler=$1 standard=$2 name=$3 sources=("library/cpp/$3.cpp") wrap=
  shift 3
  # shellcheck disable=SC2086
  "$(of_c_as "$compiler")" -std=c11 $warnings -g "$@" -Ilibrary/include -c library/src/table.c -o "$out/cpp-table.o"
  case $name in
    tests) sources+=(library/cpp/{values,threads,handing,growing,tables,walks,ends}.cpp) ;;
    waiting) wrap=$(printf -- ' -Wl,--wrap=shardheap_raw_%s' leave take load receipt_make) ;;
    plain) set -- "$@" -fno-exceptions -fno-rtti ;;
    examples) sources=("$out/examples.cpp") ;;
    readme) sources=("$out/examples.cpp.readme.cpp") ;;
  esac
  # shellcheck disable=SC2086
  "$compiler" "-std=$standard" $warnings -Wshadow -g "$@" -Ilibrary/include -Ilibrary/cpp "${sources[@]}" \
    "$out/cpp-table.o" "$archive" "$memory" $wrap -lpthread -o "$out/cpp-$name"
}

# cpp_run COMPILER STANDARD NAME FLAG..: compiles a test, and runs it.
cpp_run() {
  cpp_compiled "$@"
  run "cpp-$3"
}

# cpp_all COMPILER STANDARD FLAG..: compiles and runs each test, the first also in checked mode.
cpp_all() {
  local compiler=$1 standard=$2 name
  shift 2
  python3 library/cpp/examples.py "$out/examples.cpp"
  for name in tests waiting plain checked examples entities; do
    cpp_run "$compiler" "$standard" "$name" "$@"
  done
  cpp_compiled "$compiler" "$standard" readme "$@"
  [ "$(run cpp-readme)" = $'user 7\nGone' ] || {
    echo "the example of library/README.md in C++ does not print what it says" >&2
    return 1
  }
  cpp_run "$compiler" "$standard" tests -DSHARDHEAP_CHECKED "$@"
}

# cpp_codes: each code of shardheap.h is an errc.
cpp_codes() {
  local code codes missing=0
  codes=$(sed -n '/^typedef enum shardheap_code/,/^}/s/^    \(SHARDHEAP_\w*\) = .*/\1/p' library/include/shardheap.h)
  [ -n "$codes" ]
  for code in $codes; do
    ! grep -q "= $code\b" library/cpp/gearlongan/errors.hpp || continue
    echo "errors.hpp: errc has no $code" >&2
    missing=1
  done
  return "$missing"
}

# cpp_other_standards COMPILER: the headers and the tests by the later standards that it has, without a warning.
cpp_other_standards() {
  local standard source
  for standard in c++20 c++23 c++2b; do
    "$1" "-std=$standard" -fsyntax-only -x c++ /dev/null 2> /dev/null || continue
    echo "== C++ by $1, $standard"
    for source in tests values threads handing growing tables walks ends waiting checked entities; do
      # shellcheck disable=SC2086
      "$1" "-std=$standard" $warnings -Wshadow -fsyntax-only -Ilibrary/include -Ilibrary/cpp "library/cpp/$source.cpp"
    done
  done
}

# cpp_sanitized COMPILER: with its sanitizers of addresses, undefined behaviour and threads. The archive is instrumented
# for the last if SHARDHEAP_TSAN_LIB names one that is. In another the sanitizer does not see how a chunk is published,
# and takes what a thread finds there for a race.
cpp_sanitized() {
  echo "== C++ with the sanitizers of $1"
  cpp_all "$1" c++17 -O1 -DFEWER_ROUNDS -fsanitize=address,undefined -fno-sanitize-recover=all
  local archive=${SHARDHEAP_TSAN_LIB:-$archive} flags=(-O1 -DFEWER_ROUNDS -fsanitize=thread)
  [ -n "${SHARDHEAP_TSAN_LIB:-}" ] || {
    echo "skipped: SHARDHEAP_TSAN_LIB names no archive, so threads fill no growing heap under the thread sanitizer"
    flags+=(-DONE_THREAD_GROWS)
  }
  cpp_run "$1" c++17 tests "${flags[@]}"
  cpp_run "$1" c++17 tests "${flags[@]}" -DSHARDHEAP_CHECKED
}
