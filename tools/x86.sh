# To be sourced by sh: a C compiler for x86-64 and what runs its programs, natively on x86-64, elsewhere Debian's cross compiler and emulator. What is missing is installed from
# Debian's packages. Sets `compiler`, `binutils` (what stands before nm and size) and `run` (what stands before a program that is linked statically).
lacks() { ! command -v "$1" >/dev/null; }
install_debian() { { apt-get update -q && DEBIAN_FRONTEND=noninteractive apt-get install -y -q "$@"; } >&2; }
if [ "$(uname -m)" = x86_64 ]; then
    if lacks gcc; then install_debian gcc libc6-dev; fi
    compiler=gcc binutils='' run=''
else
    if lacks x86_64-linux-gnu-gcc || lacks qemu-x86_64; then install_debian gcc-x86-64-linux-gnu libc6-dev-amd64-cross qemu-user; fi
    compiler=x86_64-linux-gnu-gcc binutils=x86_64-linux-gnu- run=qemu-x86_64
fi
