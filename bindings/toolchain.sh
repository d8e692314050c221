# Sourced by scripts that build. Sets `kit` to the toolchain's folder, or stops with a message.
command -v rt > /dev/null || {
    echo "The command rt is not on the path, so nothing can be proved or built. README.md names the" \
        "toolchain. Without it, use the files that it has made in dist/." >&2
    exit 1
}
kit=$(dirname "$(dirname "$(realpath "$(command -v rt)")")")
