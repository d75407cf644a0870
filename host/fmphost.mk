# Runs a project's C on this machine: docs/HOST.md. The project's Makefile has two lines,
#
#     FMPHOST_CFG = machine.cfg
#     include .../host/fmphost.mk
#
# and `make fmphost` builds fmphost-out/run of the C files beside it. Where the project has static API files of TOPPERS, FMPHOST_TOPPERS
# names them in place of the first line, with the words of tools/from-toppers.

FMPHOST := $(patsubst %/,%,$(dir $(abspath $(lastword $(MAKEFILE_LIST)))))
FMPHOST_OUT ?= fmphost-out
FMPHOST_CFG ?= $(if $(FMPHOST_TOPPERS),$(FMPHOST_OUT)/machine.cfg,machine.cfg)
FMPHOST_SOURCES ?= $(wildcard *.c)
# headers that declare what an exinf names, or a block's size
FMPHOST_HEADERS ?=
# what the project's compiler is given: -I, -D
FMPHOST_FLAGS ?=
FMPHOST_RUN ?= $(FMPHOST_OUT)/run
FMPHOST_LIBRARY ?= $(FMPHOST_OUT)/libfmphost.a
fmphost_room := $(dir $(FMPHOST_LIBRARY))parts
FMPSIM ?= fmpsim
# the library fmp, libfmp.a: then the kernel is in the program; else it is fmpsim behind two pipes
FMPHOST_FMP ?=
LD ?= ld
OBJCOPY ?= objcopy

fmphost_clang := $(findstring clang,$(shell $(CC) --version 2>/dev/null))
fmphost_c := $(CC) -std=gnu11 -g -MMD -MP -Wno-error=implicit-function-declaration -I'$(FMPHOST)/include' -I'$(FMPHOST_OUT)'
# The hooks have C's types, which are not those that gcc knows of its sanitizers.
fmphost_own := -fno-omit-frame-pointer -I'$(FMPHOST)/../include' -O2 -fvisibility=hidden -Wall -Wextra $(if $(fmphost_clang),,-Wno-builtin-declaration-mismatch)
# Each access and each function calls a hook, each line is its own (-O0), and a call's place is that of its caller. The project's code has a
# section of its own, so that its functions are known.
fmphost_seen := -O0 -fno-omit-frame-pointer -fno-optimize-sibling-calls -finstrument-functions -fno-builtin -fsanitize=thread \
    $(if $(fmphost_clang),-mllvm -tsan-distinguish-volatile=1 -mllvm -tsan-instrument-read-before-write=1,--param tsan-distinguish-volatile=1)
# what of the C library the project's files call by way of the host
fmphost_wrapped := memcpy memmove memset memcmp memchr strlen strnlen strcpy stpcpy strncpy strcat strncat strcmp strncmp strcasecmp strncasecmp \
    strchr strrchr strstr strspn strcspn strpbrk atoi atol strtol strtoul sprintf snprintf vsprintf vsnprintf strdup strndup \
    malloc calloc realloc free exit _exit _Exit quick_exit fork vfork pthread_create execve execv execvp raise kill
fmphost_objects := $(patsubst %.c,$(FMPHOST_OUT)/%.o,$(notdir $(FMPHOST_SOURCES)))
fmphost_kernel := $(if $(FMPHOST_FMP),pipes,in_process)
fmphost_parts := $(patsubst $(FMPHOST)/src/%.c,$(fmphost_room)/%.o,$(filter-out %/$(fmphost_kernel).c,$(wildcard $(FMPHOST)/src/*.c)))
vpath %.c $(sort $(dir $(FMPHOST_SOURCES)))

.PHONY: fmphost
fmphost: $(FMPHOST_RUN)

# Addresses of variables are the same in each start of the program (-no-pie), since they may be in a trace and are in an order.
$(FMPHOST_RUN): $(fmphost_objects) $(FMPHOST_OUT)/kernel_cfg.o $(FMPHOST_OUT)/outside.o $(FMPHOST_LIBRARY)
	$(CC) $(FMPHOST_SANITIZERS) -no-pie -o $@ $^ $(fmphost_wrapped:%=-Wl,--wrap=%)
$(FMPHOST_OUT)/outside.o: $(fmphost_objects) $(FMPHOST_OUT)/kernel_cfg.o $(FMPHOST_LIBRARY) $(FMPHOST)/gen/fmphost-outside
	@'$(FMPHOST)/gen/fmphost-outside' $(fmphost_objects) $(FMPHOST_OUT)/kernel_cfg.o $(FMPHOST_LIBRARY) > $(FMPHOST_OUT)/outside.c
	$(fmphost_c) $(FMPHOST_SANITIZERS) -c -o $@ $(FMPHOST_OUT)/outside.c
$(fmphost_objects): $(FMPHOST_OUT)/%.o: %.c $(FMPHOST_OUT)/kernel_cfg.h
	$(fmphost_c) $(fmphost_seen) $(FMPHOST_FLAGS) -c -o $@ $<
	$(OBJCOPY) --rename-section .text=fmphost_project,alloc,load,readonly,code,contents $@
$(FMPHOST_OUT)/kernel_cfg.o: $(FMPHOST_OUT)/kernel_cfg.c
	$(fmphost_c) $(FMPHOST_SANITIZERS) -O1 -I. $(addprefix -I,$(sort $(dir $(FMPHOST_SOURCES) $(FMPHOST_CFG)))) $(FMPHOST_FLAGS) -c -o $@ $<
$(FMPHOST_OUT)/kernel_cfg.c: $(FMPHOST_OUT)/kernel_cfg.h
	@touch $@
$(FMPHOST_OUT)/kernel_cfg.h: $(FMPHOST_CFG) $(FMPHOST)/gen/fmphost-cfg
	@mkdir -p $(FMPHOST_OUT)
	'$(FMPHOST)/gen/fmphost-cfg' $< -o $(FMPHOST_OUT) --fmpsim '$(FMPSIM)' $(addprefix --include ,$(FMPHOST_HEADERS))
ifdef FMPHOST_TOPPERS
$(FMPHOST_OUT)/machine.cfg: $(firstword $(FMPHOST_TOPPERS))
	@mkdir -p $(FMPHOST_OUT)
	'$(FMPHOST)/../tools/from-toppers' $(FMPHOST_TOPPERS) > $@ || { rm -f $@; exit 1; }
endif

# One object whose own names are hidden, so that a program may have a function `run` or a variable `state`; and its code in a section of its
# own, so that a crash in it is known to be that of the access for which it was called. Its copies of memory are no accesses of the program.
fmphost_real := $(foreach name,$(fmphost_wrapped),--redefine-sym $(name)=__real_$(name))
$(FMPHOST_LIBRARY): $(fmphost_parts) $(FMPHOST_FMP)
	$(LD) -r -o $(fmphost_room)/all.o $(fmphost_parts) $(if $(FMPHOST_FMP),--whole-archive $(FMPHOST_FMP) --no-whole-archive)
	$(OBJCOPY) --localize-hidden --rename-section .text=fmphost_text,alloc,load,readonly,code,contents $(fmphost_real) $(fmphost_room)/all.o
	rm -f $@ && $(AR) rc $@ $(fmphost_room)/all.o
$(fmphost_parts): $(fmphost_room)/%.o: $(FMPHOST)/src/%.c
	@mkdir -p $(fmphost_room)
	$(fmphost_c) $(FMPHOST_SANITIZERS) $(fmphost_own) -c -o $@ $<
-include $(wildcard $(FMPHOST_OUT)/*.d $(fmphost_room)/*.d)
