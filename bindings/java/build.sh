#!/bin/sh
# Builds palqytun.jar and libpalqytun_jni.so into a folder: bindings/java/build.sh [FOLDER] (out, in this folder). It wants a JDK of 17 or later and a
# compiler of C, and asks no network.
set -e
here=$(cd "$(dirname "$0")" && pwd)
out=${1:-$here/out}
home=$(dirname "$(dirname "$(readlink -f "$(command -v javac)")")")
mkdir -p "$out/classes"
javac --release 17 -Xlint:all -Werror -d "$out/classes" "$here"/src/main/java/palqytun/*.java
jar --create --file "$out/palqytun.jar" -C "$out/classes" palqytun
cc -std=c11 -Wall -Wextra -Wpedantic -Werror -O2 -shared -fPIC "-I$home/include" "-I$home/include/linux" -o "$out/libpalqytun_jni.so" "$here"/src/main/c/*.c -ldl -pthread
