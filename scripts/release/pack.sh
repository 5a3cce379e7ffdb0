#!/usr/bin/env bash
# Makes a release from the built program: build/bedkeep-VERSION-linux-x86_64.tar.gz, a wheel of the program and the Python package,
# and if dpkg-deb is there also build/bedkeep_VERSION_amd64.deb, with their checksums in build/SHA256SUMS. The program in them needs no shared library.
# The same sources give the same bytes with the same tools: files have the time of SOURCE_DATE_EPOCH, or else the date
# of the man page.
#
#   scripts/release/pack.sh       the wheel needs hatchling
set -eu
umask 022
cd "$(dirname "$0")/../.."
# shellcheck source=scripts/test/left_out.sh
. scripts/test/left_out.sh
scripts/release/wheel.sh
program=build/static/bedkeep
scripts/release/link_static.sh "$program"
if readelf --program-headers "$program" | grep -q INTERP || readelf --dynamic "$program" | grep -q NEEDED; then
    echo "$program needs a shared library" >&2
    exit 1
fi
scripts/prove/names_logic.sh "$program"
scripts/test/interactive.sh "$program"
scripts/test/command_line.sh "$program"
python3 scripts/test/transcripts.py "$program"
scripts/test/examples.sh "$program"
python3 scripts/test/options.py "$program"

version=$("$program" --version | sed -n '1s/^bedkeep //p')
epoch=${SOURCE_DATE_EPOCH:-$(date --utc --date="$(sed -n 's/^\.Dd //p' man/bedkeep.1)" +%s)}
export SOURCE_DATE_EPOCH=$epoch
stage=$(mktemp -d)
trap 'rm -rf "$stage"' EXIT

# install_to FOLDER WORD..: puts what a release has below the folder
install_to() {
    local folder=$1
    shift
    make --silent --no-print-directory install PROGRAM="$program" DESTDIR="$folder" "$@"
}

# noted FOLDER: puts the licenses of what else is in the program into a folder of documents
noted() {
    install -D -m 644 -t "$1/licenses" packaging/licenses/*
}

# changed: what Debian wants to know of the version
changed() {
    printf 'bedkeep (%s) unstable; urgency=low\n\n  * CHANGELOG.md says what changed.\n\n' "$version"
    printf ' -- the bedkeep authors <bedkeep@example.invalid>  %s\n' "$(LC_ALL=C date --utc --rfc-email --date="@$epoch")"
}

# linked FOLDER: in the pages below it, a link to a page that is in the sources alone becomes its words
linked() {
    python3 - "$1" << 'END'
import os, re, sys

for folder, _, names in os.walk(sys.argv[1]):
    for path in (os.path.join(folder, name) for name in names if name.endswith(".md")):
        def leads(target):
            return "://" in target or os.path.exists(os.path.join(folder, target.split("#")[0]))

        with open(path, encoding="utf-8") as page:
            text = page.read()
        with open(path, "w", encoding="utf-8") as page:
            page.write(re.sub(r"(?<!!)\[([^]]*)\]\(([^)\s]+)\)", lambda link: link[0] if leads(link[2]) else link[1], text))
END
}

# dated FOLDER: gives all below it, and itself, the time of the release
dated() {
    find "$1" -exec touch --no-dereference --date="@$epoch" {} +
}

name=bedkeep-$version-linux-x86_64
install_to "$stage/$name" PREFIX=
noted "$stage/$name/share/doc/bedkeep"
linked "$stage/$name/share/doc/bedkeep"
dated "$stage/$name"
# only files, so that unpacking changes no folder that is there
(cd "$stage" && find "$name" -type f | LC_ALL=C sort) |
    tar --create --format=gnu --owner=0 --group=0 --numeric-owner --directory="$stage" --files-from=- |
    gzip --no-name --best > "build/$name.tar.gz"
made=("$name.tar.gz")

# The unpacked program and documents: the first session of the README without an environment, the steps of the README and of
# the guide, the examples, and the tests of the Python package.
mkdir "$stage/unpacked"
tar --extract --gzip --file="build/$name.tar.gz" --directory="$stage/unpacked"
documents=$stage/unpacked/$name/share/doc/bedkeep
for document in README.md CHANGELOG.md LICENSE licenses/{NOTICE,LGPL-2.1,GPL-3.0,GCC-exception-3.1} docs/{GUIDE,LENGTHS,BASES,PIPELINES,BEDTOOLS,bedtools-report,FORMAT,PROMISES,STATEMENT}.md docs/reference.html examples/{in_git,at_scale,workflows}/README.md; do
    if [ ! -s "$documents/$document" ]; then
        echo "the release lacks $document" >&2
        exit 1
    fi
done
python3 scripts/test/pages.py "$stage/unpacked/$name/bin/bedkeep" "$documents"
scripts/test/examples.sh "$stage/unpacked/$name/bin/bedkeep" "$documents/examples"
scripts/test/python.sh "$stage/unpacked/$name/bin/bedkeep" "$stage/unpacked/$name/share/bedkeep/python"
printf 'chr1\t100\n' > "$stage/sizes"
printf 'open\tm\tmerge\nadd\tchr1\t10\t20\nadd\tchr1\t15\t30\nprint\tm\n' > "$stage/script"
if [ "$(env --ignore-environment "PATH=$PATH" PYTHONDONTWRITEBYTECODE=1 "$stage/unpacked/$name/bin/bedkeep-desk" --version)" != "bedkeep $version" ]; then
    echo 'the unpacked archive has no bedkeep-desk that runs' >&2
    exit 1
fi
said=$(env --ignore-environment "$stage/unpacked/$name/bin/bedkeep" session -g "$stage/sizes" -i /dev/null < "$stage/script")
if [ "$said" != $'chr1\t10\t30' ]; then
    echo "the unpacked program printed: $said" >&2
    exit 1
fi

scripts/test/workflows.sh "$stage/unpacked/$name/bin/bedkeep" "$documents/examples"
python3 scripts/release/address.py --check
python3 scripts/release/address.py --layout "$stage/unpacked/$name"
wheel=$(basename "$(scripts/release/wheel.sh "$stage/unpacked/$name" build)")
scripts/release/try_wheel.sh "build/$wheel"
made+=("$wheel")

if command -v dpkg-deb > /dev/null; then
    root=$stage/deb
    install_to "$root" PREFIX=/usr zshdir=/usr/share/zsh/vendor-completions pythondir=/usr/lib/python3/dist-packages
    rm "$root"/usr/lib/python3/dist-packages/{pyproject.toml,hatch_build.py,README.md,LICENSE}
    sed -i '1s|/usr/bin/env python3|/usr/bin/python3|' "$root/usr/bin/bedkeep-desk"
    gzip --no-name --best "$root"/usr/share/man/man1/*.1
    {
        cat LICENSE && echo && cat packaging/licenses/NOTICE && echo
        echo 'On Debian these licenses are /usr/share/common-licenses/LGPL-2.1 and /usr/share/common-licenses/GPL-3.'
        echo && cat packaging/licenses/GCC-exception-3.1
    } > "$root/usr/share/doc/bedkeep/copyright"
    rm "$root/usr/share/doc/bedkeep/LICENSE"
    linked "$root/usr/share/doc/bedkeep"
    changed | gzip --no-name --best > "$root/usr/share/doc/bedkeep/changelog.gz"
    home=$(sed -n 's/^Homepage = "\(.*\)"$/\1/p' python/pyproject.toml)
    case $home in *example.invalid*) home= ;; esac
    mkdir "$root/DEBIAN"
    (cd "$root" && find usr -type f | LC_ALL=C sort | xargs md5sum > DEBIAN/md5sums)
    cat > "$root/DEBIAN/control" << END
Package: bedkeep
Version: $version
Architecture: amd64
Maintainer: the bedkeep authors <bedkeep@example.invalid>
Installed-Size: $(find "$root/usr" -type f -printf '%s\n' | awk '{ sum += int(($1 + 1023) / 1024) } END { print sum }')
Recommends: python3 (>= 3.9)
Section: science
Priority: optional${home:+
Homepage: $home}
Description: keeps a track of genome intervals correct while you edit it
 bedkeep reads a BED file and carries out a script of corrections, one a line.
 Each is done, or refused with its line number and the reason. At any point it
 prints what the bedtools subcommands merge, cluster, complement, genomecov,
 intersect, subtract and getfasta print for the records as they are then.
END
    # The package is compiled once it is there: whoever runs it may not write beside it.
    for step in 'postinst py3compile' 'prerm py3clean'; do
        printf '#!/bin/sh\nset -e\nif command -v %s > /dev/null; then\n    %s -p bedkeep\nfi\n' "${step#* }" "${step#* }" > "$root/DEBIAN/${step% *}"
        chmod 755 "$root/DEBIAN/${step% *}"
    done
    dated "$root"
    dpkg-deb --root-owner-group -Zxz --threads-max=1 --build "$root" "build/bedkeep_${version}_amd64.deb" > /dev/null
    made+=("bedkeep_${version}_amd64.deb")
    if command -v lintian > /dev/null; then
        # The program is static, so that it needs nothing, for which lintian has two words, and an example has files for git; all
        # else that it says is to be mended.
        said=$(lintian --allow-root "build/bedkeep_${version}_amd64.deb" | grep -v -e statically-linked-binary -e shared-library-lacks-prerequisites \
            -e 'vcs-control-file .*/in_git/' || true)
        if [ -n "$said" ]; then
            echo "$said" >&2
            exit 1
        fi
    else
        left_out 'a look at the Debian package' 'no lintian'
    fi
else
    left_out 'the Debian package' 'no dpkg-deb'
fi

(cd build && sha256sum "${made[@]}" > SHA256SUMS && cat SHA256SUMS)
