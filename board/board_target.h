/* The board's own: macros of board.h and board_app.h that are other here. A kit has yours in its place, with tools/to-board --target. */
