# Rows that take minutes, root, and the network, read by tests/packages.sh where `all` is set.

# the same bytes once more
again=$room/again
packaging/build-packages "$program" "$archive" "$again"
told 'built once more, to the byte' "$(cd "$packages" && sha256sum -- riichi_desk*)" "$(cd "$again" && sha256sum -- riichi_desk*)"

# by clang, at the highest level, with each access tested
if has clang; then
  clang -O3 -Iinclude packaging/anywhere/riichi_desk.c "$portable" -o "$shelf/by-clang"
  same 'one file of C by clang' wanted "$shelf/by-clang" line
  clang -O1 -g -fsanitize=address,undefined -fno-sanitize=shift -Iinclude packaging/anywhere/riichi_desk.c "$portable" -o "$shelf/checked"
  same 'one file of C, with each access tested' wanted "$shelf/checked" line
else
  skip 'one file of C by clang' clang
fi
if has qemu-aarch64-static; then
  same 'ARM64, all lines' wanted qemu-aarch64-static "$packages/riichi_desk-linux-arm64" line
  same 'ARM64, explanations' explained qemu-aarch64-static "$packages/riichi_desk-linux-arm64" explain
  aarch64-linux-gnu-gcc -O1 -static -Iinclude packaging/anywhere/riichi_desk.c "$portable" -o "$shelf/portable-arm64"
  same 'one file of C on ARM64' few-wanted qemu-aarch64-static "$shelf/portable-arm64" line
fi
if has wine; then
  x86_64-w64-mingw32-gcc -O1 -Iinclude packaging/anywhere/riichi_desk.c "$portable" -o "$shelf/portable.exe"
  same 'one file of C on Windows' few-wanted env WINEDEBUG=-all WINEPREFIX="$shelf/wine" wine "$shelf/portable.exe" line
fi

# without the vectors of GNU's C, lane by lane
cc -O2 -DRIICHI_DESK_NO_VECTORS -Iinclude packaging/anywhere/riichi_desk.c "$portable" -o "$shelf/by-lanes"
same 'one file of C, lane by lane' wanted "$shelf/by-lanes" line

# the package for JavaScript in browsers, and in an engine without vectors
if has chromium firefox-esr WebKitWebDriver Xvfb; then
  sum=$(sha256sum < "$shelf/wanted" | cut -d' ' -f1)
  told 'the package in browsers' "$(printf '%s\n' "Chromium $sum" "Firefox $sum" "WebKit $sum")" \
    "$(python3 -B tests/module_in_browsers.py "$shelf/node/node_modules/riichi_desk" "$shelf/lines" 2>&1)"
else
  skip 'the package in browsers' 'chromium-driver, firefox-esr, webkit2gtk-driver or xvfb'
fi
if has node; then
  cp -r "$shelf/node/node_modules/riichi_desk" "$shelf/plain"
  sed -i 's/^\(export const HAS_VECTORS = \).*/\1false;/' "$shelf/plain/vectors.js"
  rm "$shelf/plain/riichi_desk.wasm"
  same 'Node without vectors' wanted node "$shelf/plain/command.js" line
fi

# Debian's packages, and the wheel, on an empty root
debs=$shelf/debs
if has debootstrap lintian && [ -n "$(ls releases/*.deb 2> /dev/null)" ]; then
  mkdir "$debs" && cp releases/*.deb "$debs"
  told 'lintian' '' "$(lintian --tag-display-limit 0 "$debs"/*.deb 2> /dev/null)"
  base=$shelf/root
  debootstrap --variant=minbase --include=python3,gcc,libc6-dev,pkg-config bookworm "$base" > "$room/said" 2>&1
  cp "$debs"/*.deb "$wheel" examples/python/answer.py "$base/root"
  in_root() { chroot "$base" /usr/bin/env PATH=/usr/bin:/usr/sbin:/bin HOME=/root "$@"; }
  told 'installed on an empty root' 0 "$(in_root sh -c 'dpkg -i /root/*.deb' > "$room/said" 2>&1; echo $?)"
  same 'the program there' wanted in_root riichi_desk line
  told 'its man page and completions there' 3 "$(ls "$base"/usr/share/{man/man1/riichi_desk.1.gz,bash-completion/completions/riichi_desk,zsh/vendor-completions/_riichi_desk} | wc -l)"
  in_root sh -c 'cc /usr/share/doc/libriichi-desk-dev/examples/c/answer.c $(pkg-config --cflags --libs riichi_desk) -o /root/answer'
  same 'a program in C there' wanted in_root /root/answer
  in_root python3 -c 'import glob, zipfile; zipfile.ZipFile(glob.glob("/root/*.whl")[0]).extractall("/root")'
  same 'the wheel there' wanted in_root python3 /root/answer.py
else
  skip "Debian's packages on an empty root" 'debootstrap, lintian, or a release,'
fi

# the release's README: what it prints for Python, JavaScript and one file of C
archive_of=releases/riichi_desk-$version-linux-x86_64.tar.gz
if [ -f "$archive_of" ]; then
  tar -C "$shelf" -xf "$archive_of"
  unpacked=$shelf/riichi_desk-$version-linux-x86_64
  printed() {
    awk -v word="$1" '/^```/ { if (within && index(text, word)) printf "%s", text; within = !within; text = ""; next } within { text = text $0 "\n" }' "$unpacked/README.md"
  }
  for word in 'pip install' 'npm install' riichi_desk_portable.c; do
    told "the README: $word" "$("$program" explain < examples/club-night.lines)" "$(cd "$unpacked" && bash -ec "$(printed "$word")" 2> "$room/said" | grep -v '^added \|^found \|^$')"
  done
else
  skip "the release's README" "$archive_of"
fi

# the Python package on ARM64: the wheel, and the sources compiled for it
arm=$shelf/arm64
if has debootstrap qemu-aarch64-static && debootstrap --arch=arm64 --foreign --variant=minbase --include=python3 bookworm "$arm" > "$room/said" 2>&1; then
  for package in "$arm"/var/cache/apt/archives/*.deb; do dpkg-deb -x "$package" "$arm" 2> /dev/null; done
  by_arm() { PYTHONPATH=$1 qemu-aarch64-static -L "$arm" "$arm"/usr/bin/python3.11 -B "${@:2}"; }
  mkdir "$shelf/wheel-arm64" "$shelf/built-arm64" "$shelf/sdist"
  unzip -q "$packages"/riichi_desk-*aarch64.whl -d "$shelf/wheel-arm64"
  same 'the wheel on ARM64' few-wanted by_arm "$shelf/wheel-arm64" examples/python/answer.py
  tar -C "$shelf/sdist" -xf "$packages/riichi_desk-$version.tar.gz"
  (cd "$shelf/sdist/riichi_desk-$version" && CC=aarch64-linux-gnu-gcc PLATFORM=linux_aarch64 /usr/bin/python3 -m build --wheel --no-isolation --skip-dependency-check \
    --outdir "$shelf/built" .) > "$room/said" 2>&1
  unzip -q "$shelf"/built/*.whl -d "$shelf/built-arm64"
  same 'the package from its sources on ARM64' few-wanted by_arm "$shelf/built-arm64" examples/python/answer.py
  told 'its edges on ARM64' 'all right' "$(by_arm "$shelf/built-arm64" tests/module_edges.py "$shelf/few" 2>&1)"
else
  skip 'the Python package on ARM64' 'debootstrap or qemu-user-static'
fi
