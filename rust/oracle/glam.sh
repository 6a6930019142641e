#!/bin/sh
# Puts the source of glam into target/glam, where Cargo.toml looks for it.
# It is that of the package librust-glam-dev in the suite sid, from the mirror
# that apt uses here already. The system's own apt lists are left alone.
# The last line tells the version.
set -eu

cd "$(dirname "$0")"
apt="$PWD/target/apt"
package=librust-glam-dev

rm -rf "$apt"
mkdir -p "$apt/lists/partial" "$apt/cache/archives/partial" "$apt/parts" \
    "$apt/package"

# The mirror that the system's sources name, as these lists have it.
mirror_in() {
    apt-get -o "Dir::State::lists=$1" indextargets --format '$(REPO_URI)' \
        'Created-By: Packages' 'Label: Debian' | head -n 1
}

mirror=$(mirror_in /var/lib/apt/lists)
if [ -z "$mirror" ]; then
    apt-get -q -o "Dir::State::lists=$apt/lists" \
        -o APT::Sandbox::User=root -o Acquire::Languages=none update
    mirror=$(mirror_in "$apt/lists")
fi
if [ -z "$mirror" ]; then
    echo 'glam.sh: apt knows no mirror of Debian' >&2
    exit 1
fi
keyring=/usr/share/keyrings/debian-archive-keyring.gpg
echo "deb [signed-by=$keyring] $mirror sid main" > "$apt/sources.list"

# Runs apt-get with lists, cache and sources of our own.
sid() {
    apt-get -q \
        -o "Dir::Etc::sourcelist=$apt/sources.list" \
        -o "Dir::Etc::sourceparts=$apt/parts" \
        -o "Dir::State::lists=$apt/lists" \
        -o "Dir::Cache=$apt/cache" \
        -o APT::Sandbox::User=root \
        -o Acquire::Languages=none \
        "$@"
}

sid update
(cd "$apt" && sid download "$package")
dpkg -x "$apt/$package"_*.deb "$apt/package"

rm -rf target/glam
mv "$apt"/package/usr/share/cargo/registry/glam-* target/glam
rm -rf "$apt"
grep -m 1 '^version' target/glam/Cargo.toml
