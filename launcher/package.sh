# Packs the built program up, for a machine without the toolchain.

# Writes a tar of a folder j1: the program, this launcher beside it, the documents and the examples.
package() {
    if [ ! -d "$top/crates" ]; then
        echo "j1: this is a package, and packs nothing: copy its folder" >&2
        exit 126
    fi
    stage=$(mktemp -d) || exit 126
    trap 'rm -rf "$stage"' EXIT
    trap 'exit 129' HUP
    trap 'exit 130' INT
    trap 'exit 143' TERM
    mkdir "$stage/j1" &&
        cp -R "$top/j1" "$top/launcher" "$top/README.md" "$top/docs" "$top/examples" "$program" "$stage/j1" &&
        (cd "$stage" && tar -cf - j1) >"$1" && exit 0
    echo "j1: the package was not written" >&2
    exit 126
}
