# make install [PREFIX=/usr/local] [DESTDIR=]: installs lineup, the programs of the core that it asks, its manual page, and the pages and samples which that names;
# and what C links (make install-lib: this alone). make lib builds target/staticlib/libwulthrein.a, the calls over bytes for C (include/wulthrein.h);
# make shared makes a shared object of it, which lineup asks in place of a program where it can. What is newer than the crates' sources is not built again.
PREFIX = /usr/local
PYTHON = $(shell command -v /usr/bin/python3 || command -v python3)
lib = $(DESTDIR)$(PREFIX)/lib/wulthrein
bin = $(DESTDIR)$(PREFIX)/bin
man = $(DESTDIR)$(PREFIX)/share/man/man1
doc = $(DESTDIR)$(PREFIX)/share/doc/wulthrein
archive = target/staticlib/libwulthrein.a
shared = target/shared/libwulthrein.so
programs = crates/calls/out/calls crates/checker/out/checker
sources = crates.txt $(shell find crates/*/src crates/*/specs crates/*/proofs -type f)
pages = $(shell sed 's/\\-/-/g' docs/lineup.1 | grep -oE '(docs|python)/[A-Za-z.-]*[A-Za-z]' | sort -u)

.PHONY: build lib shared install install-lib uninstall

build: $(programs)

# `rt run` proves, builds and runs a program: on no input, and what it prints is not looked at
$(programs): $(sources)
	cd $(@D:/out=) && rt run < /dev/null > /dev/null
	touch $@

lib: $(archive)

$(archive): $(sources)
	tools/archive
	mkdir -p $(@D)
	cp crates/firmware_c/out/libfirmware_c.a $@

shared: $(shared)

# -z text: the archive's code is position independent, or there is no shared object
$(shared): $(archive)
	mkdir -p $(@D)
	$(CC) -shared -o $@ -Wl,--whole-archive $(archive) -Wl,--no-whole-archive -Wl,-z,text -Wl,-z,defs

install-lib: lib
	install -d $(DESTDIR)$(PREFIX)/include $(DESTDIR)$(PREFIX)/lib/pkgconfig
	install -m 644 include/wulthrein.h $(DESTDIR)$(PREFIX)/include/wulthrein.h
	install -m 644 $(archive) $(DESTDIR)$(PREFIX)/lib/libwulthrein.a
	sed -e 's|@PREFIX@|$(PREFIX)|' -e "s|@VERSION@|$$(cat VERSION)|" include/wulthrein.pc.in > $(DESTDIR)$(PREFIX)/lib/pkgconfig/wulthrein.pc

# an installed copy has no source: the version is written down, and the modules are compiled for those who may not write beside them
install: build install-lib
	install -d $(lib)/python/lineup/commands $(lib)/programs $(bin) $(man)
	install -m 755 lineup $(lib)/lineup
	install -m 755 $(programs) $(lib)/programs
	install -m 644 python/lineup/*.py $(lib)/python/lineup
	install -m 644 python/lineup/page.css python/lineup/page.js $(lib)/python/lineup
	install -m 644 python/lineup/commands/*.py $(lib)/python/lineup/commands
	sed 's|/usr/local|$(PREFIX)|g' docs/lineup.1 > $(man)/lineup.1
	rm -rf $(doc)
	for page in $(pages); do install -D -m 644 $$page $(doc)/$$page || exit 1; done
	find samples -type f -exec install -D -m 644 {} $(doc)/{} \;
	if command -v $(CC) > /dev/null; then $(MAKE) shared && install -D -m 755 $(shared) $(lib)/$(shared); else echo 'no $(CC): lineup asks its programs alone'; fi
	./lineup --version > $(lib)/VERSION
	$(PYTHON) -m compileall -q $(if $(DESTDIR),-s $(DESTDIR) -p /) $(lib)/python
	ln -sf ../lib/wulthrein/lineup $(bin)/lineup

uninstall:
	rm -rf $(lib) $(doc)
	rm -f $(bin)/lineup $(man)/lineup.1
	rm -f $(DESTDIR)$(PREFIX)/include/wulthrein.h $(DESTDIR)$(PREFIX)/lib/libwulthrein.a $(DESTDIR)$(PREFIX)/lib/pkgconfig/wulthrein.pc
