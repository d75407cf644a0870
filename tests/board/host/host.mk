# Builds an application of a kit on the host, in its own folder: board.c as a compiler of a board gets it, with no hooks.
FMPHOST_CFG = machine.cfg
FMPHOST_SOURCES = board.c host.c
include $(HOST)/fmphost.mk
fmphost_seen = -O0 -Wall -Wextra -Werror
