# To be sourced: where the toolchain has its compiler, linker and loader.
kit=$(dirname "$(dirname "$(readlink -f "$(command -v rt)")")")
tools=$kit/toolchain
