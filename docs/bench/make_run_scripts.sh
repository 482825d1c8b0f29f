#!/usr/bin/env bash
# Writes the scripts of the figures of runs by threads into the current folder: BLOCKS-THREADS-SIZE, as 8-4-large. In each, eight
# files are filled by appends of so many blocks, each file by one of 1, 2, 4 or 8 threads, which goes through its files in turn; in
# the end each is cut to nothing, so that no tree has to print what it held. `small` has a quarter of the appends of `large`.
# The image: splitfs mkfs image 16384 1024 64 64
awk 'BEGIN {
    for (blocks = 1; blocks <= 8; blocks += 7)
        for (threads = 1; threads <= 8; threads *= 2) {
            each = blocks == 1 ? 126 : 32
            put(blocks "-" threads "-small", each)
            put(blocks "-" threads "-large", 4 * each)
        }
}
function put(name, each, thread, file, append) {
    for (thread = 0; thread < threads; thread++) {
        print "thread" > name
        for (file = thread; file < 8; file += threads) print "open f" file " /file" file " wac" > name
        for (append = 0; append < each; append++)
            for (file = thread; file < 8; file += threads) print "write f" file " 6" file "*" 4096 * blocks > name
        for (file = thread; file < 8; file += threads) print "truncate f" file " 0" > name
    }
    close(name)
}'
