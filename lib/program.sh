# Sourced by every command that runs a proved program: builds it where it is missing or older than its sources, finds the loader that it runs under,
# and runs it so that the exit status says what became of it.
#
# A copy made by --install has the folders programs/ and loader/, and needs neither the sources nor the kit.

home=$(cd "$(dirname "${BASH_SOURCE[0]}")/.." && pwd)
command_name=$(basename "$0")

# A reason that can't be written is no reason to end otherwise.
say() { echo "$command_name: $*" >&2 || true; }

is_copy() { [ -d "$home/loader" ]; }

# Where the program $1 stands, or is built to.
program_file() { if is_copy; then echo "$home/programs/$1"; else echo "$home/crates/$1/out/$1"; fi; }

is_old() {
    local program
    program=$(program_file "$1")
    [ ! -x "$program" ] || [ -n "$(find "$home/crates" "$home/crates.txt" -name out -prune -o -newer "$program" -print -quit)" ]
}

need_kit() { command -v rt >/dev/null || { say 'the Rattle kit (rt) is not on the path'; return 1; }; }

# Passes on what the kit says of a build, but for where it begins, what it runs and its notes.
say_progress() {
    sed -un "/^rt: \(note: \|running \|[a-z]*: begins with \)/d; s/^rt: chose --jobs [0-9]* for /$command_name: proving /p; t; s/^rt: /$command_name: /p" >&2
}

# Proves and builds a program, and runs it over no input: there is no way to build one alone.
build_program() {
    (cd "$home/crates/$1" && rt run </dev/null 2>&1 >/dev/null | say_progress; exit "${PIPESTATUS[0]}") ||
        { say 'the program was not proved'; return 1; }
    # A program that came out the same isn't written again.
    touch "$(program_file "$1")"
}

# Proves and builds those of the programs that are old.
build_programs() {
    local program
    is_copy && return
    for program in "$@"; do
        is_old "$program" || continue
        need_kit || return
        say "proving and building $program; this takes some minutes, once"
        build_program "$program" || return
    done
}

# Sets `tools` to the folder with the loader and the C library of the programs, and `loader` to the words that a program is started by. Programs are for
# x86-64; where the processor is another, there may be an emulator beside the loader.
find_loader() {
    local rt
    if is_copy; then
        tools=$home/loader
    else
        need_kit || return
        rt=$(readlink -f "$(command -v rt)")
        tools=${RATTLE_HOME:-$(dirname "$(dirname "$rt")")}/toolchain
    fi
    loader=("$tools/lib/ld-linux-x86-64.so.2" --library-path "$tools/lib")
    emulator=()
    [ ! -x "$tools/bin/qemu-x86_64" ] || emulator=("$tools/bin/qemu-x86_64")
    loader=("${emulator[@]}" "${loader[@]}")
}

# Runs the program $1 over standard input and ends this command:
#   0  the result was written whole
#   1  the refusal's row was written whole
#   2  the input was not read to its end, the output not written to its end, or the program not built, not found or killed; standard error says which
# The output is kept until the program has ended, so that nothing is written of a run that went wrong.
answer_by() {
    local program status=0
    build_programs "$1" && find_loader || exit 2
    program=$(program_file "$1")
    # Where nobody reads the reason, or its file is at its limit, this shell still ends with its status and by no signal.
    trap '' PIPE XFSZ
    kept=$(mktemp -d) || { say 'there is no room for the output on its way'; exit 2; }
    trap 'rm -rf "$kept"' EXIT
    { "${loader[@]}" "$program" >"$kept/out" 2>"$kept/err" || status=$?; } 2>/dev/null
    cat "$kept/err" >&2 || true
    [ "$status" -eq 0 ] || { [ -s "$kept/err" ] || say "the program ended with status $status"; exit 2; }
    [ ! -s "$kept/err" ] || exit 2
    [ -s "$kept/out" ] || { say 'the program wrote nothing'; exit 2; }
    cat "$kept/out" || { say 'the output could not be written to its end'; exit 2; }
    [ "$(head -c 8 "$kept/out")" != refused, ] || exit 1
    exit 0
}

# Copies the command that this is, with the program $1 and what it runs under, to the folder $2.
install_to() {
    build_programs "$1" && find_loader || exit 2
    {
        mkdir -p "$2/lib" "$2/programs" "$2/loader/lib" &&
            cp "$home/$command_name" "$2/" && cp "$home/lib/program.sh" "$2/lib/" && cp "$(program_file "$1")" "$2/programs/" &&
            cp -L "$tools/lib/ld-linux-x86-64.so.2" "$tools/lib/libc.so.6" "$2/loader/lib/"
    } || { say "the copy in $2 is not whole"; exit 2; }
    [ ${#emulator[@]} -eq 0 ] || { mkdir -p "$2/loader/bin" && cp "${emulator[0]}" "$2/loader/bin/"; } || exit 2
    exit 0
}

# A command for the program $1: the words after it are the command's own.
command_for() {
    case $#:${2:-} in
    1:) answer_by "$1" ;;
    3:--install) install_to "$1" "$3" ;;
    *) say "usage: $command_name < TEXT, or $command_name --install DIR"; exit 2 ;;
    esac
}
