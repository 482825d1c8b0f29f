#!/usr/bin/env bash
# Writes the scripts of the figure of threads into the current folder: eight (eight threads, each 511 writes of 64 bytes
# behind each other to a file of its own) and one (one thread with the same writes, the eight files in turn).
# The image, with 256 log lines: splitfs mkfs image 4096 256 64 64
awk 'BEGIN {
    for (thread = 0; thread < 8; thread++) {
        print "thread\nopen f /file" thread " rwc" > "eight"
        for (write = 0; write < 511; write++) print "write f 6" thread "*64" > "eight"
    }
    for (thread = 0; thread < 8; thread++) print "open f" thread " /file" thread " rwc" > "one"
    for (write = 0; write < 511; write++)
        for (thread = 0; thread < 8; thread++) print "write f" thread " 6" thread "*64" > "one"
}'
