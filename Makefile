# The tool, the benchmarks and what is installed. The archive is built from the proved crates if there is none yet.
PREFIX ?= /usr/local
CC = gcc
CFLAGS ?= -O2
BUILD ?= target/tool

HEADER = include/phagundro.h
VERSION := $(shell sed -n 's/.*define PHAGUNDRO_VERSION "\(.*\)"/\1/p' $(HEADER))
ARCHIVE = crates/capi/out/libcapi.a
SOURCES = $(wildcard tools/*.c)
HEADERS = $(wildcard tools/*.h) $(HEADER)
COMPILE = $(CC) -std=c11 -Wall -Wextra -Werror $(CFLAGS)
SAMPLE = tests/corpus/crmf/openssl-sig-p256.der
MEASURED = openssl-sig-rsa2048 openssl-batch-10-ec-sig bc-batch-100-rsa-sig-near-64k openssl-batch-259-ec-sig-near-64k \
	pyasn1-batch-913-nokey-near-64k openssl-regToken-60000
CRYPTO = $(shell pkg-config --libs libcrypto 2>/dev/null)
# What the calls are compared with is compiled as the archive is, by LLVM, if clang is there; the strict walk by CC too. Where a short loop
# crosses a multiple of 64 it takes longer, so the linker doesn't choose the places.
LLVM = $(shell command -v clang || echo $(CC))
MEASURING = -std=c11 -Wall -Wextra -Werror $(CFLAGS) -falign-functions=64 -D_POSIX_C_SOURCE=199309L $(if $(CRYPTO),-DWITH_OPENSSL) -Iinclude
INSTALLED = $(DESTDIR)$(PREFIX)

.PHONY: all install demo bench test clean help

all: $(BUILD)/phagundro ## the archive, if there is none yet, and the tool

$(ARCHIVE):
	cd crates/capi && rt lib

$(BUILD)/phagundro: $(SOURCES) $(HEADERS) $(ARCHIVE) Makefile
	mkdir -p $(BUILD)
	$(COMPILE) -o $@ $(SOURCES) $(ARCHIVE) $(LDFLAGS)

define PKG_CONFIG
prefix=$(abspath $(PREFIX))
includedir=$${prefix}/include
libdir=$${prefix}/lib

Name: phagundro
Description: Batches of certificate requests, read, written, judged, joined, cut and compared
Version: $(VERSION)
Cflags: -I$${includedir}
Libs: -L$${libdir} -lphagundro
endef
export PKG_CONFIG

install: all ## header, archive, pkg-config file, tool and man page under PREFIX
	install -d $(INSTALLED)/bin $(INSTALLED)/include $(INSTALLED)/lib/pkgconfig $(INSTALLED)/share/man/man1
	install -m 755 $(BUILD)/phagundro $(INSTALLED)/bin/phagundro
	install -m 644 $(HEADER) $(INSTALLED)/include/phagundro.h
	install -m 644 $(ARCHIVE) $(INSTALLED)/lib/libphagundro.a
	install -m 644 tools/phagundro.1 $(INSTALLED)/share/man/man1/phagundro.1
	echo "$$PKG_CONFIG" > $(INSTALLED)/lib/pkgconfig/phagundro.pc
	chmod 644 $(INSTALLED)/lib/pkgconfig/phagundro.pc

demo: all ## a sample batch, read and judged
	$(BUILD)/phagundro editions $(SAMPLE)
	$(BUILD)/phagundro read --edition 2 $(SAMPLE)
	$(BUILD)/phagundro verdict --edition 2 --position 0 $(SAMPLE)

$(BUILD)/bench: $(wildcard bench/*) $(HEADER) $(ARCHIVE) Makefile
	mkdir -p $(BUILD)
	$(CC) $(MEASURING) -Dstrict_walk=strict_walk_by_cc -c -o $(BUILD)/strict.o bench/strict.c
	$(LLVM) $(MEASURING) -DCC_NAME='"$(notdir $(CC))"' -o $@ bench/*.c $(BUILD)/strict.o $(ARCHIVE) $(LDFLAGS) $(CRYPTO)

bench: $(BUILD)/bench ## the benchmarks, on this machine
	$(BUILD)/bench $(MEASURED:%=tests/corpus/crmf/%.der)

test: ## every proof and every test, as .ci/run
	.ci/run

clean: ## takes the built tool and benchmarks away
	rm -rf $(BUILD)

help: ## this list
	@awk -F ':.*## ' '/^[a-z]+:.*## / { printf "make %-8s %s\n", $$1, $$2 }' $(firstword $(MAKEFILE_LIST))
