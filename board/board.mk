# For the Makefile that the kernel's configure made in the folder of this application's objects: `include $(BOARD)/board.mk` at its end,
# where BOARD is this folder. Then
#
#     make board-images
#
# links the kernel once for each case, as $(OBJFILE)-1, $(OBJFILE)-2 and so on: one case a boot. Only app.c is compiled anew for each.

BOARD ?= $(patsubst %/,%,$(dir $(lastword $(MAKEFILE_LIST))))
OBJFILE ?= fmp
include $(BOARD)/board_cases.mk

.PHONY: board-images
board-images:
	@for number in $(BOARD_CASES); do \
	    $(CC) -c $(CFLAGS) $(APPL_CFLAGS) -I$(BOARD) -DBOARD_NUMBER=$$number -o app.o $(BOARD)/app.c && \
	    $(MAKE) $(OBJFILE) && cp $(OBJFILE) $(OBJFILE)-$$number || exit 1; \
	done
