# shellcheck shell=bash
# What bench/run, bench/libfec and bench/patterns share. All are in the repository's top folder when they read it.
archive=target/staticlib/libkusikhut.a

# The proved library, built where it is missing or older than its sources.
fresh_library() {
    if [[ $(tools/build --check) == library* ]]; then
        mkdir -p target
        tools/library >target/build.log 2>&1 || { cat target/build.log >&2; exit 1; }
    fi
}

# Whether a C program with libfec's encoder compiles and links here.
has_libfec() {
    mkdir -p target
    gcc -include fec.h -x c -o target/has-libfec - -lfec 2>/dev/null <<<'int main(void) { encode_rs_8(0, 0, 0); }'
}
