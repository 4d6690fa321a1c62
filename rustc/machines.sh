#!/bin/sh
# Loads Debian's rustc with Rust's library for s390x, aarch64, armv7 and i686 into a folder, and
# changes nothing else: rustc/machines.sh [FOLDER], by default out/machines. It takes 250 MB and 20
# seconds. Put the folder on your path: it has a rustc and a cargo. The linkers and qemu are Debian's
# packages gcc-{s390x,aarch64,i686}-linux-gnu, gcc-arm-linux-gnueabihf,
# libc6-dev-{s390x,arm64,armhf,i386}-cross and qemu-user-static.
set -eu
others="s390x arm64 armhf i386"
machines="amd64 $others"
mkdir -p "${1:-out/machines}"
cd "${1:-out/machines}"
to=$PWD
mkdir -p state/lists/partial cache/archives/partial deb
cat > conf << END
Dir::State "$to/state";
Dir::State::status "/var/lib/dpkg/status";
Dir::Cache "$to/cache";
APT::Architectures { $(printf '"%s"; ' $machines)};
END
export APT_CONFIG="$to/conf"
# not each place that apt takes packages from has all machines
apt-get -qq update || true

# versions PACKAGE: those that apt can load, without what a rebuild for one machine adds
versions() {
	apt-cache madison "$1" | cut -d '|' -f 2 | sed 's/ //g; s/+b[0-9]*$//' | sort -u
}

# The newest compiler that has Rust's library for each machine: some places that apt takes packages
# from don't have all machines.
version=$(for machine in $machines; do
	versions libstd-rust-web-dev:$machine
done | sort -V | uniq -c | sed -n "s/^ *$(echo $machines | wc -w) //p" | tail -n 1)
[ -n "$version" ] || {
	echo "rustc/machines.sh: apt knows no rustc-web with a library for each machine" >&2
	exit 1
}

# of_version PACKAGE..: each with that version, as apt-get takes it
of_version() {
	for package in "$@"; do
		apt-cache madison "$package" | cut -d '|' -f 2 | sed 's/ //g' |
			grep -E "^$(echo "$version" | sed 's/[.+]/\\&/g')(\+b[0-9]+)?$" | head -n 1 |
			sed "s/^/$package=/"
	done
}

# depends PACKAGE..: the libraries that these depend on and that aren't installed here, besides
# those of Rust, which have to be in the folder
depends() {
	apt-cache depends --important "$@" | sed -n 's/^[ |]*Depends: \(lib[^<>]*\)$/\1/p' |
		sort -u | while read -r library; do
		case $library in
		libstd-rust-web-dev) ;;
		libstd-rust-*) of_version "$library" ;;
		*) dpkg-query -W "$library" > /dev/null 2>&1 || echo "$library" ;;
		esac
	done
}

# shellcheck disable=SC2046
wanted=$(of_version rustc-web cargo-web libstd-rust-web-dev:amd64)
more=$wanted
while [ -n "$more" ]; do
	# shellcheck disable=SC2086
	more=$(depends $more | while read -r library; do
		echo "$wanted" | grep -qxF -e "$library" || echo "$library"
	done)
	wanted="$wanted
$more"
done
cd deb
# shellcheck disable=SC2046,SC2086
apt-get -qq download $wanted $(of_version $(printf 'libstd-rust-web-dev:%s ' $others))
for package in *.deb; do dpkg -x "$package" "$to"; done
cd "$to"
for tool in rustc cargo; do
	cat > $tool <<- END
		#!/bin/sh
		export RUSTC=$to/rustc LD_LIBRARY_PATH=$to/usr/lib/x86_64-linux-gnu
		exec $to/usr/bin/$tool "\$@"
	END
	chmod +x $tool
done
rm -r deb cache state
