#!/bin/bash
# Builds a guest for qemu: the kernel that Debian has for clouds, with the modules that are wanted, and a file system in memory. As root:
#
#     guest.sh FOLDER                     FOLDER/kernel and FOLDER/memory: strongSwan's charon over Linux's own ESP, with swanctl, ip and ping
#     guest.sh FOLDER systemd PROGRAM     FOLDER/kernel and FOLDER/systemd-memory: this machine's systemd, the daemon PROGRAM and its unit
#
# The guest has 192.0.2.2/24 on its wire, and runs what comes on TCP port 9999 by a shell. charon's has 10.2.0.1 and 2001:db8:0:2::1 inside.
set -eu
folder=${1:?guest.sh: a folder is wanted}
kind=${2:-charon}
[ "$kind" = charon ] || program=$(realpath "${3:?guest.sh: a program is wanted}")
unit=$(realpath "$(dirname "$0")/../etc/sukperind.service")
mkdir -p "$folder"
cd "$folder"
folder=$PWD
case $kind in
charon) root=$folder/root memory=$folder/memory ;;
systemd) root=$folder/systemd-root memory=$folder/systemd-memory ;;
*) echo "guest.sh: charon or systemd is wanted" >&2 && exit 2 ;;
esac
rm -rf kernel-package "$root" "$memory"
mkdir -p kernel-package "$root"/{bin,dev,etc,lib/modules,proc,run,sys,tmp,usr/bin,var/log}

# The kernel, as its package has it.
if ! ls linux-image-*.deb >/dev/null 2>&1; then
    package=$(apt-cache depends linux-image-cloud-amd64 | awk '/Depends: linux-image/ { print $2; exit }')
    # As this user: apt's own can't write into a folder that is root's alone.
    apt-get -o APT::Sandbox::User=root download "$package" >/dev/null
fi
dpkg-deb -x linux-image-*.deb kernel-package
cp kernel-package/boot/vmlinuz-* kernel
release=$(ls kernel-package/lib/modules)
depmod -b kernel-package "$release"

# Modules, each behind those that it stands on. What is none of this kernel is built in.
case $kind in
charon) wanted="virtio_pci virtio_net esp4 xfrm_user authenc authencesn hmac sha256_generic crypto_null echainiv seqiv cbc aes_generic" ;;
systemd) wanted="virtio_pci virtio_net tun" ;;
esac
for module in $wanted; do
    modprobe -d "$folder/kernel-package" -S "$release" --show-depends "$module" 2>/dev/null | awk '$1 == "insmod" { print $2 }' || true
done | awk '!seen[$0]++' >modules
while read -r module; do cp "$module" "$root/lib/modules/"; done <modules
sed 's|.*/||' modules >"$root/etc/modules"

# A program or a library, at the same path or at another one, with what it is linked with.
take() {
    mkdir -p "$root$(dirname "${2:-$1}")"
    cp -L "$1" "$root${2:-$1}"
    { ldd "$1" 2>/dev/null || true; } | grep -o '/[^ ]*' | while read -r needed; do
        [ -e "$root$needed" ] || { mkdir -p "$root$(dirname "$needed")" && cp -L "$needed" "$root$needed"; }
    done
}
cp "$(command -v busybox)" "$root/bin/busybox"
for applet in $(busybox --list); do [ "$applet" = busybox ] || ln -sf busybox "$root/bin/$applet"; done
# The real ones, which are called by their paths: busybox's shell takes its own applet for a bare name.
for tool in ip ping; do
    found=$(readlink -f "$(command -v $tool)")
    take "$found"
    [ "$found" = "/usr/bin/$tool" ] || cp -L "$found" "$root/usr/bin/$tool"
done
ln -s ../run "$root/var/run"
echo 'root:x:0:0::/:/bin/sh' >"$root/etc/passwd"
echo 'root:x:0:' >"$root/etc/group"

cat >"$root/init" <<'END'
#!/bin/sh
export PATH=/bin:/usr/sbin
mount -t proc proc /proc
mount -t sysfs sys /sys
mount -t devtmpfs dev /dev
mount -t tmpfs tmp /run
while read module; do insmod /lib/modules/$module; done </etc/modules
/usr/bin/ip link set lo up
/usr/bin/ip link set eth0 up
/usr/bin/ip address add 192.0.2.2/24 dev eth0
END
chmod +x "$root/init"

with_charon() {
    mkdir -p "$root/etc/swanctl"
    take /usr/lib/ipsec/charon
    take /usr/sbin/swanctl
    for plugin in random nonce aes sha1 sha2 hmac kdf gmp kernel-netlink socket-default vici updown; do
        take "/usr/lib/ipsec/plugins/libstrongswan-$plugin.so"
    done
    cat >"$root/etc/strongswan.conf" <<'END'
charon {
  load = random nonce aes sha1 sha2 hmac kdf gmp kernel-netlink socket-default vici updown
  # A request without an answer is given up after 1 + 1.5 + 2.25 s.
  retransmit_timeout = 1
  retransmit_base = 1.5
  retransmit_tries = 2
  filelog {
    main {
      path = /var/log/charon
      time_format = %H:%M:%S
      default = 1
      ike = 2
      flush_line = yes
    }
  }
  plugins {
    vici {
      socket = unix:///run/charon.vici
    }
  }
}
swanctl {
  load = random
  plugins {
    vici {
      socket = unix:///run/charon.vici
    }
  }
}
END
    cat >>"$root/init" <<'END'
/usr/bin/ip address add 10.2.0.1/32 dev lo
/usr/bin/ip address add 2001:db8:0:2::1/128 dev lo
# Inside goes by the policy of ESP, and no other way.
/usr/bin/ip route add 10.1.0.0/24 dev eth0 src 10.2.0.1
/usr/bin/ip -6 route add 2001:db8:0:1::/64 dev eth0 src 2001:db8:0:2::1
echo "the guest is there"
exec nc -ll -p 9999 -e /bin/sh
END
}

with_systemd() {
    units=lib/systemd/system
    mkdir -p "$root"/{etc/sukperind,home,new,root,usr/sbin,var/tmp,$units/multi-user.target.wants,$units/sockets.target.wants}
    for part in /lib/systemd/{systemd,systemd-journald,systemd-shutdown} /bin/{systemctl,journalctl}; do take "$part"; done
    # No service of a whole machine: its targets, the log, the daemon, and the shell on port 9999.
    cp /$units/*.target /$units/*.slice /$units/systemd-journald{.service,.socket,-dev-log.socket} "$root/$units/"
    ln -s ../systemd-journald.socket ../systemd-journald-dev-log.socket "$root/$units/sockets.target.wants/"
    ln -sf multi-user.target "$root/$units/default.target"
    take "$program" /usr/sbin/sukperind
    cp "$unit" "$root/$units/"
    cat >"$root/$units/shell.service" <<'END'
[Service]
ExecStart=/bin/nc -ll -p 9999 -e /bin/sh
END
    ln -s ../shell.service "$root/$units/multi-user.target.wants/"
    echo 0123456789abcdef0123456789abcdef >"$root/etc/machine-id"
    cp -L /etc/os-release "$root/etc/"
    cat >>"$root/init" <<'END'
# On a file system of its own, since the first one of a kernel can't be left: the unit has a view of it without what it mustn't write.
mount -t tmpfs -o mode=755 root /new
cp -a bin etc home lib* root tmp usr var /new
mkdir /new/dev /new/proc /new/run /new/sys
for at in dev proc run sys; do mount --move /$at /new/$at; done
exec switch_root /new /lib/systemd/systemd
END
}
"with_$kind"
(cd "$root" && find . | cpio --quiet -o -H newc) >"$memory"
