# What both examples in C are built from: the header, and the archive that ./archive in the repository's root writes.
# Another archive is named by ARCHIVE, as an absolute path. It assumes a C compiler, and writes programs into BUILD.
ARCHIVE ?= ../../target/libreplayframes.a
INCLUDE ?= ../../include
BUILD ?= ../../target/examples
FLAGS = -std=c99 -Wall -Wextra -Werror -pedantic -O2 -I$(INCLUDE) -I..

ifeq ($(wildcard $(ARCHIVE)),)
$(error there is no $(ARCHIVE): run ./archive in the repository's root, or name the archive: make ARCHIVE=...)
endif
