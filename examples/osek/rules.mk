# How PROGRAM is made of OBJECTS: by Debian's gcc-riscv64-unknown-elf, or by clang and ld.lld with
# `make COMPILER=clang`. docs/GUIDE.md says what each flag is for; -fno-toplevel-reorder leaves functions and data in the order
# of the sources, and -g1 with nothing of this machine's paths lets tools name lines. OPTIMIZE=-Os and the like make other code.
here := $(dir $(lastword $(MAKEFILE_LIST)))
FLAGS = -march=rv32im -mabi=ilp32 -ffreestanding $(OPTIMIZE) -fno-jump-tables -fno-optimize-sibling-calls \
	-g1 -ffile-prefix-map=$(CURDIR)=. -Wall -Wextra -I $(here)
OPTIMIZE = -O2
ifeq ($(COMPILER),clang)
COMPILE = clang --target=riscv32-unknown-elf -mno-relax $(FLAGS)
LINK = ld.lld --no-relax
KIND = .clang
else
COMPILE = riscv64-unknown-elf-gcc -msmall-data-limit=0 -fno-toplevel-reorder $(FLAGS)
LINK = riscv64-unknown-elf-ld -m elf32lriscv --no-relax
KIND =
endif
# each compiler's objects have names of their own, and the program is linked each time, since either may have made what is there
override OBJECTS := $(OBJECTS:.o=$(KIND).o)

$(PROGRAM): $(OBJECTS) $(here)link.ld
	$(LINK) -T $(here)link.ld $(OBJECTS) -o $@

%$(KIND).o: %.c $(here)osek.h $(here)flow.h $(HEADERS)
	$(COMPILE) -c $< -o $@

clean:
	rm -f *.o

.PHONY: clean $(PROGRAM)
