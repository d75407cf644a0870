/* A compiler for a board has no C library's headers. */
