# make            the library and the program, in build/; everything that they stand on is proved first: minutes, but for what is proved already
# make try        the program at once, in seconds: proves nothing
# make test       the gate, .ci/run
# make install    headers, archives and pkg-config files, under PREFIX (and DESTDIR, where a package is made)
# make clean      removes build/ and target/, where tests/wrong has its logs; what rt made and kept lies in crates/NAME/out
PREFIX ?= /usr/local
OBJCOPY ?= objcopy
VERSION = 1.0
HEADERS = include/grafs.h include/grafs_build.h include/grafs_service.h
LIBRARIES = build/libgrafs.a build/libgrafs_prefixed.a build/libservice.a

.PHONY: all lib program try test install clean
all: lib program

# Builds a crate in its folder, by `rt lib` or `rt run`: rt proves first what has changed of it and below it. A line for each crate is shown, and all that rt
# says where it fails.
BUILD = built() { { (cd crates/$$1 && rt $$2 </dev/null); echo $$? >build/status; } 2>&1 | tee build/log | sed -un '/^rt: chose/p'; \
	test "$$(cat build/status)" = 0 || { cat build/log; false; }; }; built

# The archive, the same with names that a program with a `run` of its own can link, and the one of all calls.
lib:
	@mkdir -p build
	@$(BUILD) grafs lib
	@$(BUILD) service lib
	cp crates/grafs/out/libgrafs.a crates/service/out/libservice.a build
	$(OBJCOPY) --redefine-sym fuse=grafs_fuse --redefine-sym run=grafs_run build/libgrafs.a build/libgrafs_prefixed.a

# `rt run` also runs the program, in its crate's folder, where neither a question nor a map lies.
program:
	@mkdir -p build
	@$(BUILD) grafs_main run
	cp crates/grafs_main/out/grafs_main build/grafs_main

try:
	@mkdir -p build
	@echo 'Nothing is proved. On the question and the map in crates/grafs_main/data the program prints:'
	@cd crates/grafs_main && rt try --data question.lpq=data/question.lpq --data map.lpm=data/map.lpm 2>../../build/log || { cat ../../build/log; false; }

test:
	.ci/run

# A pkg-config file: prefix, name, what it has, version, further flags, archive.
PC = printf 'prefix=%s\nName: %s\nDescription: Verified graph queries: %s\nVersion: %s\nCflags: -I$${prefix}/include%s\nLibs: -L$${prefix}/lib -l%s\n'
PC_DIR = '$(DESTDIR)$(PREFIX)/lib/pkgconfig'

install: lib
	install -d '$(DESTDIR)$(PREFIX)/include' $(PC_DIR)
	install -m 644 $(HEADERS) '$(DESTDIR)$(PREFIX)/include'
	install -m 644 $(LIBRARIES) '$(DESTDIR)$(PREFIX)/lib'
	@$(PC) '$(PREFIX)' grafs 'fuse and run' $(VERSION) '' grafs >$(PC_DIR)/grafs.pc
	@$(PC) '$(PREFIX)' grafs_prefixed 'fuse and run' $(VERSION) ' -DGRAFS_PREFIXED' grafs_prefixed >$(PC_DIR)/grafs_prefixed.pc
	@$(PC) '$(PREFIX)' grafs_service 'fuse, run, boards, counted runs, sorted maps' $(VERSION) '' service >$(PC_DIR)/grafs_service.pc

clean:
	rm -rf build target
