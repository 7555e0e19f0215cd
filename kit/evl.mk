# Builds the programs of the folder whose Makefile includes this one, on libevl's headers: NAME.c becomes NAME.elf, with NAME.map
# beside it.
#
#   KIT = ../kit
#   include $(KIT)/evl.mk
#
# `make run` runs PROGRAM and shows its console; `make hunt` looks for a schedule in which it fails; `make debug` runs it under
# GDB; `make picture` draws the run. All are of main.elf unless told otherwise: make run PROGRAM=other.elf
KIT ?= $(patsubst %/,%,$(dir $(lastword $(MAKEFILE_LIST))))
CROSS ?= riscv64-unknown-elf-
COMPILER ?= gcc
CFLAGS ?= -O2 -g -Wall -Wextra
RAM ?= 262144
STACK ?= 8192
CPUS ?= 2
WATCHDOG ?= 0
PROGRAM ?= main.elf
PROGRAMS ?= $(patsubst %.c,%.elf,$(wildcard *.c))
VARDOZEK ?= $(KIT)/../bin/vardozek
GDB ?= gdb-multiarch

RISCV = -march=rv64i -mabi=lp64 -mcmodel=medany -ffunction-sections -fdata-sections -I $(KIT)/include
LIBGCC = $(shell $(CROSS)gcc -march=rv64i -mabi=lp64 -print-libgcc-file-name)
LINK = -T $(KIT)/link.ld --gc-sections --build-id=none --defsym=ram_size=$(RAM) --defsym=stack_size=$(STACK) $(LDFLAGS)
ifeq ($(COMPILER),clang)
COMPILE = clang --target=riscv64-unknown-elf -mno-relax $(RISCV)
LD ?= ld.lld
else
COMPILE = $(CROSS)gcc $(RISCV) -msmall-data-limit=0
endif
ifeq ($(origin LD),default)
LD = $(if $(filter clang,$(COMPILER)),ld.lld,$(CROSS)ld --no-warn-rwx-segments)
endif

# The library is built in a folder of the program's own, by the same compiler and with the same flags.
LIBRARY = .evl
SOURCES = $(wildcard $(KIT)/lib/*.c)
OBJECTS = $(LIBRARY)/start.o $(patsubst $(KIT)/lib/%.c,$(LIBRARY)/%.o,$(SOURCES))
HEADERS = $(wildcard $(KIT)/include/*.h $(KIT)/include/*/*.h $(KIT)/lib/*.h) $(KIT)/evl.h

all: $(PROGRAMS)

$(LIBRARY)/flags: FORCE
	@mkdir -p $(LIBRARY)
	@echo '$(COMPILE) $(CFLAGS) $(LINK)' | cmp -s - $@ || echo '$(COMPILE) $(CFLAGS) $(LINK)' > $@

$(LIBRARY)/%.o: $(KIT)/lib/%.c $(HEADERS) $(LIBRARY)/flags
	$(COMPILE) $(CFLAGS) -ffreestanding -fno-builtin -c -o $@ $<

$(LIBRARY)/start.o: $(KIT)/lib/start.S $(LIBRARY)/flags
	$(COMPILE) -c -o $@ $<

$(LIBRARY)/libevl.a: $(OBJECTS)
	rm -f $@
	$(CROSS)ar rcsD $@ $(filter-out %/start.o,$^)

%.o: %.c $(HEADERS) $(LIBRARY)/flags
	$(COMPILE) $(CFLAGS) -c -o $@ $<

%.elf: %.o $(LIBRARY)/libevl.a $(KIT)/link.ld
	$(LD) $(LINK) -o $@ $(LIBRARY)/start.o $< $(LIBRARY)/libevl.a $(LIBGCC)
	CROSS=$(CROSS) $(KIT)/map $@ > $(@:.elf=.map)

%.list: %.elf
	$(CROSS)objdump -d $< > $@

run: $(PROGRAM)
	$(VARDOZEK) run $(PROGRAM) --cpus $(CPUS) --watchdog $(WATCHDOG)

hunt: $(PROGRAM)
	$(VARDOZEK) hunt $(PROGRAM) --cpus $(CPUS) --ram $(RAM) --events 100000 --out $(basename $(PROGRAM))

debug: $(PROGRAM)
	echo 'boot $(CPUS) $(RAM) 1048576' > $(LIBRARY)/debug.script
	$(GDB) -ex 'target extended-remote | $(VARDOZEK) gdb $(PROGRAM) $(LIBRARY)/debug.script' $(PROGRAM)

picture: $(PROGRAM)
	$(VARDOZEK) view $(PROGRAM) $(basename $(PROGRAM)).svg --run --cpus $(CPUS) --watchdog $(WATCHDOG)

clean:
	rm -rf $(PROGRAMS) $(PROGRAMS:.elf=.o) $(PROGRAMS:.elf=.map) $(LIBRARY) *.list

.PHONY: all run hunt debug picture clean FORCE
.SECONDARY:
