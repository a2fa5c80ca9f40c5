# The static library for C: the archive, the heap over malloc, the examples, the tests, and an
# installation. The archive is proved and built by `rt`, the command of the kit (README.md).

PREFIX ?= /usr/local
CFLAGS ?= -O2 -Wall -Wextra
ARCHIVE = crates/mapdb_c/out/libmapdb_c.a
SOURCES = $(shell find crates -path '*/out' -prune -o -name '*.rt' -print -o -name '*.antt' -print)
BUILT = build

all: $(ARCHIVE) $(BUILT)/smallest $(BUILT)/two_processors

$(ARCHIVE): crates.txt $(SOURCES)
	mkdir -p $(BUILT)
	touch $(BUILT)/begun
	./prove mapdb_c
	touch -r $(BUILT)/begun $@

$(BUILT)/mapdb_heap.o: c/mapdb_heap.c include/mapdb.h
	mkdir -p $(BUILT)
	$(CC) $(CPPFLAGS) $(CFLAGS) -Iinclude -c -o $@ $<

$(BUILT)/%: examples/c/%.c include/mapdb.h $(BUILT)/mapdb_heap.o $(ARCHIVE)
	$(CC) $(CPPFLAGS) $(CFLAGS) -Iinclude -pthread $(LDFLAGS) -o $@ $< $(BUILT)/mapdb_heap.o $(ARCHIVE)

$(BUILT)/calls: bench/c/calls.c include/mapdb.h $(BUILT)/mapdb_heap.o $(ARCHIVE)
	$(CC) $(CPPFLAGS) $(CFLAGS) -Iinclude $(LDFLAGS) -o $@ $< $(BUILT)/mapdb_heap.o $(ARCHIVE)

# The heap over malloc has an archive of its own, which a kernel with a heap leaves out: mapdb.pc
# names the library alone, and mapdb-heap.pc both. They name the folder of this installation, so
# they are made anew each time.
install: $(ARCHIVE) $(BUILT)/mapdb_heap.o
	install -d $(DESTDIR)$(PREFIX)/include $(DESTDIR)$(PREFIX)/lib/pkgconfig
	install -m 644 include/mapdb.h $(DESTDIR)$(PREFIX)/include
	install -m 644 $(ARCHIVE) $(DESTDIR)$(PREFIX)/lib
	$(AR) rcs $(DESTDIR)$(PREFIX)/lib/libmapdb_heap.a $(BUILT)/mapdb_heap.o
	for name in mapdb mapdb-heap; do \
	    sed 's#@PREFIX@#$(abspath $(PREFIX))#' $$name.pc.in > $(BUILT)/$$name.pc && \
	    install -m 644 $(BUILT)/$$name.pc $(DESTDIR)$(PREFIX)/lib/pkgconfig || exit 1; \
	done

test: $(ARCHIVE)
	ARCHIVE=$(ARCHIVE) tests/c/run.sh

clean:
	rm -rf $(BUILT)

.PHONY: all install test clean
